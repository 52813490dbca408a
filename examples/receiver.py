#!/usr/bin/env python3
"""A receiver of webhooks that asks hms: answers 200 where a label is ok, else 401, with the lines of `verify`.

    python3 receiver.py PORT CONF [HMS]

It rebuilds the message as it was recorded: the request line and the header lines as they came, but for the two lines
of framing, then `Content-Length` and the content. http.server doesn't take chunks off, so that is done here. The
moment is that of the clock. For use, keep the nonces that were accepted, and put a proxy before it.
"""
import http.server
import subprocess
import sys
import time

PORT, CONF = int(sys.argv[1]), sys.argv[2]
PROGRAM = sys.argv[3] if len(sys.argv) > 3 else "hms"


class Receiver(http.server.BaseHTTPRequestHandler):
    protocol_version = "HTTP/1.1"

    def content(self):
        codings, lengths = (self.headers.get_all(name, []) for name in ("Transfer-Encoding", "Content-Length"))
        if len(codings) + len(lengths) > 1 or codings not in ([], ["chunked"]):
            raise ValueError("a message that two readers may end in two places")
        if not codings:
            return self.rfile.read(int(lengths[0]) if lengths else 0)
        content = b""
        while size := int(self.rfile.readline().split(b";")[0], 16):
            content += self.rfile.read(size)
            self.rfile.readline()
        while self.rfile.readline().strip():
            pass
        return content

    def do_POST(self):
        content = self.content()
        lines = [self.requestline] + [f"{name}: {value}" for name, value in self.headers.raw_items()
                                      if name.lower() not in ("content-length", "transfer-encoding")]
        if content:
            lines.append(f"Content-Length: {len(content)}")
        message = ("\r\n".join(lines) + "\r\n\r\n").encode("latin1") + content
        done = subprocess.run([PROGRAM, "verify", "--conf", CONF, "--now", str(int(time.time()))], input=message,
                              stdout=subprocess.PIPE, check=False)
        self.send_response(200 if done.returncode == 0 else 401)
        self.send_header("Content-Length", str(len(done.stdout)))
        self.end_headers()
        self.wfile.write(done.stdout)

    do_GET = do_PUT = do_PATCH = do_DELETE = do_POST


http.server.HTTPServer(("127.0.0.1", PORT), Receiver).serve_forever()
