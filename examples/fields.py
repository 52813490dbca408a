#!/usr/bin/env python3
"""Prints the list of fields of a message that a log has, for `hms lists --into message`.

    python3 fields.py FORM request|response LOG [CONTENT]

The first such message of the log is taken, with its trailer section. CONTENT is a file with its content, where the
log hasn't it. FORM is

    nghttp      what `nghttp -v` or `nghttpd -v` prints; no content
    curl        what `curl --trace FILE` writes, or `curl -v` prints; with -v no content
    nginx       nginx's error log at the level `debug`; no content
    nginx-json  nginx's access log, and
    haproxy     HAProxy's log, where its format is that of fields_record.sh; requests alone
    har         a HAR, as browsers and `nghttp --har` write it; perhaps no content
"""
import base64
import json
import re
import sys

# Each reader gives the sections of fields, each with the stream and the direction that it has, and contents by kind.


def read_nghttp(log):
    """Fields that are received stand before the line of their frame, those that are sent after it."""
    sections, received, sent = [], {}, None
    for line in log.split("\n"):
        if found := re.search(r"\] recv \(stream_id=(\d+)\) (:?[^:]+): (.*)", line):
            received.setdefault(found[1], []).append((found[2], found[3]))
        elif found := re.search(r"\] (recv|send) HEADERS frame <.*stream_id=(\d+)>", line):
            sent = [] if found[1] == "send" else None
            sections.append((found[1] + found[2], received.pop(found[2], []) if sent is None else sent))
        elif sent is not None and (found := re.match(r" {10}(:?[^:; (]+): (.*)", line)):
            sent.append((found[1], found[2]))
        elif not line.startswith(" "):
            sent = None
    return sections, {}


def head_fields(text):
    """The fields of a head as curl writes it, whose first line is the status line."""
    for line in text.split("\r\n"):
        if found := re.match(r"HTTP/\S+ (\d+)", line):
            yield ":status", found[1]
        elif ": " in line:
            yield tuple(line.split(": ", 1))


def read_curl(log):
    """Newer releases write [HTTP/2] [1] where older ones write h2h3; bytes are in hexadecimal."""
    request, texts, bytes_of = [], {}, ""
    for line in log.split("\n"):
        if found := re.match(r"(?:== Info:|\*) (?:h2h3|\[HTTP/2\] \[\d+\]) \[(:?[^:]+): (.*)\]$", line):
            request.append((found[1], found[2]))
        elif line.startswith("< "):
            texts["<= Recv header"] = texts.get("<= Recv header", b"") + line[2:].strip("\r").encode("latin1") + b"\r\n"
        elif found := re.match(r"([<=][=>] \w+ \w+), \d+ bytes", line):
            bytes_of = found[1]
        elif found := re.match(r"[0-9a-f]{4,}: ((?:[0-9a-f]{2} ){1,16})", line):
            texts[bytes_of] = texts.get(bytes_of, b"") + bytes.fromhex(found[1])
    heads = [list(head_fields(text)) for text in texts.get("<= Recv header", b"").decode("latin1").split("\r\n\r\n")]
    contents = {"request": texts.get("=> Send data", b""), "response": texts.get("<= Recv data", b"")}
    return [("send", request)] + [("recv", head) for head in heads if head], contents


def read_nginx(log):
    """A field of `http2 header` was received, one of `http2 output header` is sent."""
    sections = []
    for found in re.finditer(r'http2 (output )?header: "(:?[^:]+): (.*)"$', log, re.MULTILINE):
        begins = found[2].startswith(":") and not (sections and sections[-1][1][-1][0].startswith(":"))
        if begins or sections[-1][0] != found[1]:
            sections.append((found[1], []))
        sections[-1][1].append((found[2], found[3]))
    return sections, {}


def read_nginx_json(log):
    """nginx writes an empty value for a field that isn't there."""
    record = json.loads(log.split("\n")[0])
    fields = [(name, value) for name, value in record["fields"] if value]
    return [("recv", fields)], {"request": record["content"].encode("latin1")}


def read_haproxy(log):
    """The method, scheme, path, lines and content in hexadecimal; `:authority` is the line of `host`."""
    words = re.search(r"^request (.*)$", log, re.MULTILINE)[1].split(" ")
    method, scheme, path, lines, content = (bytes.fromhex(word) for word in words)
    fields = [tuple(line.split(": ", 1)) for line in lines.decode("latin1").split("\r\n") if line]
    pseudo = [(":method", method), (":scheme", scheme), (":path", path)]
    named = [(":authority" if name == "host" else name, value) for name, value in fields]
    named.sort(key=lambda field: field[0] != ":authority")
    return [("recv", [(name, text.decode("latin1")) for name, text in pseudo] + named)], {"request": content}


def read_har(log):
    """Pseudo-header fields that it hasn't are made of the method, the URL and the status."""
    entry = json.loads(log.encode("latin1"))["log"]["entries"][0]
    request, response = entry["request"], entry["response"]
    scheme, authority, path = re.match(r"([^:]+)://([^/?#]*)([^#]*)", request["url"]).groups()
    pseudo = {":method": request["method"], ":scheme": scheme, ":authority": authority,
              ":path": path if path.startswith("/") else "/" + path}
    pseudo.update((field["name"], field["value"]) for field in request["headers"] if field["name"] in pseudo)
    plain = [[(field["name"].lower(), field["value"]) for field in message["headers"]
              if not field["name"].startswith(":") and field["name"].lower() != "host"]
             for message in (request, response)]
    body = response["content"].get("text", "").encode()
    contents = {"request": request.get("postData", {}).get("text", "").encode(),
                "response": base64.b64decode(body) if response["content"].get("encoding") == "base64" else body}
    return [("send", list(pseudo.items()) + plain[0]), ("recv", [(":status", str(response["status"]))] + plain[1])], contents


def message_of(sections, kind):
    """The fields and the trailer fields of the first message of the kind; an interim response isn't one."""
    pseudo = {"request": ":method", "response": ":status"}[kind]
    for place, (stream, fields) in enumerate(sections):
        if dict(fields).get(pseudo, "1").startswith("1"):
            continue
        later = [more for other, more in sections[place + 1:] if other == stream and more]
        return fields, later[0] if later and not later[0][0][0].startswith(":") else []
    sys.exit(f"the log has no {kind}")


def lines_of(word, fields):
    for name, value in fields:
        name, value = name.encode("latin1", "replace"), value.encode("latin1", "replace")
        yield b"%s %d %d\n%s%s\n" % (word, len(name), len(value), name, value)


FORMS = {"nghttp": read_nghttp, "curl": read_curl, "nginx": read_nginx, "nginx-json": read_nginx_json,
         "haproxy": read_haproxy, "har": read_har}
with open(sys.argv[3], encoding="latin1", newline="\n") as file:
    found, contents = FORMS[sys.argv[1]](file.read())
fields, trailers = message_of(found, sys.argv[2])
content = contents.get(sys.argv[2], b"")
if len(sys.argv) > 4:
    with open(sys.argv[4], "rb") as file:
        content = file.read()
sys.stdout.buffer.write(b"hms-fields 1\n" + b"".join(lines_of(b"field", fields)) + b"content %d\n%s\n"
                        % (len(content), content) + b"".join(lines_of(b"trailer", trailers)) + b"end\n")
