#!/usr/bin/env python3
"""Judges the requests that a proxy mirrors, as they come, by one `hms gateway`.

    python3 mirror.py PORT CONF [HMS]

It takes requests at 127.0.0.1:PORT, as docs/manual/gateway.md has nginx mirror them, and answers each with 204. Their
bytes go, with the moment of the clock, into the stream of one `hms gateway`, whose records are printed as they come; of
a message that passes the line alone. SIGTERM or Control-C ends the stream.
"""
import signal
import socketserver
import subprocess
import sys
import threading
import time

PORT, CONF = int(sys.argv[1]), sys.argv[2]
PROGRAM = sys.argv[3] if len(sys.argv) > 3 else "hms"
GATEWAY = subprocess.Popen([PROGRAM, "gateway", "--conf", CONF], stdin=subprocess.PIPE, stdout=subprocess.PIPE,
                           preexec_fn=lambda: signal.signal(signal.SIGINT, signal.SIG_IGN))
LOCK, MOMENT = threading.Lock(), [0]


def send(text):
    GATEWAY.stdin.write(text)
    GATEWAY.stdin.flush()


class Receiver(socketserver.StreamRequestHandler):
    def handle(self):
        while message := self.message():
            with LOCK:
                MOMENT[0] = max(MOMENT[0], int(time.time()))  # a clock may be set back, moments don't fall
                send(b"at %d\nrequest %d\n%s\n" % (MOMENT[0], len(message), message))
            self.wfile.write(b"HTTP/1.1 204 No Content\r\n\r\n")

    def message(self):
        """The next request, as it came. nginx mirrors content with its length."""
        head, length = b"", 0
        while (line := self.rfile.readline()) not in (b"", b"\r\n"):
            head += line
            name, _, value = line.partition(b":")
            if name.lower() == b"content-length":
                length = int(value)
        return head + line + self.rfile.read(length) if line else b""


def show():
    while record := GATEWAY.stdout.readline().decode():
        print(record, end="", flush=True)
        if record.startswith("pass "):
            GATEWAY.stdout.read(int(record.split()[-1]) + 1)


class Server(socketserver.ThreadingTCPServer):
    allow_reuse_address = daemon_threads = True


signal.signal(signal.SIGTERM, signal.default_int_handler)
send(b"hms-recording 1\nat %d\n" % int(time.time()))
threading.Thread(target=show, daemon=True).start()
with Server(("127.0.0.1", PORT), Receiver) as server:
    try:
        server.serve_forever()
    except KeyboardInterrupt:
        with LOCK:
            send(b"end\n")
            GATEWAY.stdin.close()
GATEWAY.wait()
