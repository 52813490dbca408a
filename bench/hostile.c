/* What bench/hostile does for each run: as `hms` it keeps what a case gives the program, else it runs jobs, one by one.

   hms WORDS..                 keeps words, files and standard input in a file of the folder HOSTILE_KEPT, and does what the
                               program HOSTILE_PROGRAM does with them
   runner PROGRAM FILE         reads jobs from standard input, runs each twice, and writes how it ended

   All numbers are of 32 bits, and each text comes after its length. A job: the number of words, the words, the input, 1
   and a text for FILE, or 0. Its end: the status as of wait(2), whether both runs ended alike, the more of their
   microseconds and of their KiB, what came on standard output and on standard error. */
#define _GNU_SOURCE
#include <errno.h>
#include <fcntl.h>
#include <stdint.h>
#include <stdio.h>
#include <stdlib.h>
#include <string.h>
#include <sys/mman.h>
#include <sys/resource.h>
#include <sys/wait.h>
#include <unistd.h>

enum { WORDS = 64, MOST = 72 << 20, CPU_SECONDS = 20, WALL_SECONDS = 120 };

typedef struct { char *bytes; uint32_t length; } Text;

static void fail(const char *what) { perror(what); _exit(98); }

static void write_all(int file, const void *bytes, size_t length) {
    for (const char *place = bytes; length;) {
        ssize_t done = write(file, place, length);
        if (done < 0) fail("write");
        place += done;
        length -= done;
    }
}

static void put_number(int file, uint32_t number) { write_all(file, &number, sizeof number); }
static void put_text(int file, Text text) { put_number(file, text.length); write_all(file, text.bytes, text.length); }

/* All that a file gives, as much as MOST bytes; the length is -1 where a read fails. */
static Text read_all(int file) {
    Text text = { malloc(1 << 16), 0 };
    for (uint32_t room = 1 << 16;;) {
        if (text.length == room) text.bytes = realloc(text.bytes, room *= 2);
        ssize_t got = read(file, text.bytes + text.length, room - text.length);
        if (got < 0) { text.length = -1; return text; }
        if (got == 0 || (text.length += got) > MOST) return text;
    }
}

static int hold(Text text) {
    int file = memfd_create("text", 0);
    write_all(file, text.bytes, text.length);
    lseek(file, 0, SEEK_SET);
    return file;
}

/* ---- what a case gives */

static int takes_file(const char *word) {
    static const char *options[] = { "--conf", "--request", "--script", "--wanted", "--other" };
    for (int i = 0; i < 5; i++) if (!strcmp(word, options[i])) return 1;
    return 0;
}

static int keep(int count, char **words) {
    char name[4096], path[64];
    snprintf(name, sizeof name, "%s/XXXXXX", getenv("HOSTILE_KEPT"));
    int kept = mkstemp(name);
    put_number(kept, count - 1);
    for (int i = 1; i < count; i++) {
        Text word = { words[i], strlen(words[i]) };
        int file = takes_file(words[i - 1]) ? open(words[i], O_RDONLY) : -1;
        Text text = file < 0 ? (Text){ NULL, -1 } : read_all(file);
        put_text(kept, word);
        put_number(kept, text.length != (uint32_t)-1);
        if (text.length == (uint32_t)-1) continue;
        put_text(kept, text);
        snprintf(path, sizeof path, "/dev/fd/%d", hold(text));
        words[i] = strdup(path);
    }
    Text input = read_all(0);
    if (input.length == (uint32_t)-1) unlink(name);
    else { put_text(kept, input); dup2(hold(input), 0); }
    close(kept);
    execv(getenv("HOSTILE_PROGRAM"), words);
    fail("exec");
    return 98;
}

/* ---- jobs */

static int get(void *into, size_t length) { return fread(into, 1, length, stdin) == length; }

static Text get_text(void) {
    Text text;
    if (!get(&text.length, sizeof text.length)) _exit(0);
    text.bytes = malloc(text.length + 1);
    if (!get(text.bytes, text.length)) _exit(0);
    text.bytes[text.length] = 0;
    return text;
}

static void refill(int file, Text text) {
    if (ftruncate(file, 0)) fail("ftruncate");
    lseek(file, 0, SEEK_SET);
    write_all(file, text.bytes, text.length);
    lseek(file, 0, SEEK_SET);
}

static Text content(int file) {
    lseek(file, 0, SEEK_SET);
    return read_all(file);
}

static uint32_t larger(uint32_t a, uint32_t b) { return a > b ? a : b; }

static int run(char **words, int *files, struct rusage *usage) {
    int status;
    pid_t child = fork();
    if (child < 0) fail("fork");
    if (!child) {
        struct rlimit limit = { CPU_SECONDS, CPU_SECONDS + 1 };
        for (int i = 0; i < 3; i++) dup2(files[i], i);
        setrlimit(RLIMIT_CPU, &limit);
        alarm(WALL_SECONDS);
        execv(words[0], words);
        fail("exec");
    }
    while (wait4(child, &status, 0, usage) < 0) if (errno != EINTR) fail("wait");
    return status;
}

static int is_same(Text a, Text b) { return a.length == b.length && !memcmp(a.bytes, b.bytes, a.length); }

int main(int count, char **names) {
    char *last = strrchr(names[0], '/');
    if (!strcmp(last ? last + 1 : names[0], "hms")) return keep(count, names);
    int files[3], slot = open(names[2], O_RDWR | O_CREAT | O_CLOEXEC, 0600);
    for (int i = 0; i < 3; i++) files[i] = memfd_create("text", MFD_CLOEXEC);
    for (uint32_t number; get(&number, sizeof number);) {
        char *words[WORDS] = { names[1] };
        for (uint32_t i = 1; i <= number; i++) words[i] = get_text().bytes;
        Text input = get_text(), text = { NULL, 0 }, out[2], said[2];
        uint32_t has_text, status[2], micros = 0, kib = 0;
        if (!get(&has_text, sizeof has_text)) return 0;
        if (has_text) refill(slot, text = get_text());
        for (int i = 0; i < 2; i++) {
            struct rusage usage;
            refill(files[0], input);
            refill(files[1], (Text){ NULL, 0 });
            refill(files[2], (Text){ NULL, 0 });
            status[i] = run(words, files, &usage);
            micros = larger(micros, (usage.ru_utime.tv_sec + usage.ru_stime.tv_sec) * 1000000
                                        + usage.ru_utime.tv_usec + usage.ru_stime.tv_usec);
            kib = larger(kib, usage.ru_maxrss);
            out[i] = content(files[1]);
            said[i] = content(files[2]);
        }
        put_number(1, status[0]);
        put_number(1, status[0] == status[1] && is_same(out[0], out[1]) && is_same(said[0], said[1]));
        put_number(1, micros);
        put_number(1, kib);
        put_text(1, out[0]);
        put_text(1, said[0]);
        for (uint32_t i = 1; i <= number; i++) free(words[i]);
        for (int i = 0; i < 2; i++) { free(out[i].bytes); free(said[i].bytes); }
        free(input.bytes);
        free(text.bytes);
    }
    return 0;
}
