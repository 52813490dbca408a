#!/usr/bin/env python3
"""Writes a recording of requests that are signed by the key of conf.toml, each with a nonce of its own.

    python3 stream.py COUNT.. [at SECONDS COUNT..]..

COUNT requests come at a moment, 100 or the last SECONDS; the nonces are numbers from 0 on, again from 0 after `at`.
"""
import base64
import hashlib
import hmac
import sys

KEY = base64.b64decode("uzvJfB4u3N0Jy4T7NZ75MDVcr8zSTInedJtkgcu46YW4XByzNJjxBdtjUkdJPBtbmHhIDi6pcl8jsasjlTMtDQ==")


def request(moment, nonce):
    params = f'("@method");created={moment};keyid="test-shared-secret";nonce="{nonce}"'
    base = f'"@method": GET\n"@signature-params": {params}'
    tag = base64.b64encode(hmac.new(KEY, base.encode(), hashlib.sha256).digest()).decode()
    return f"GET / HTTP/1.1\r\nHost: a\r\nSignature-Input: a={params}\r\nSignature: a=:{tag}:\r\n\r\n"


words, moment, nonce = sys.argv[1:], 100, 0
print("hms-recording 1\nat 100")
while words:
    word = words.pop(0)
    if word == "at":
        moment, nonce = int(words.pop(0)), 0
        print("at", moment)
        continue
    for nonce in range(nonce, nonce + int(word)):
        text = request(moment, nonce)
        sys.stdout.write(f"request {len(text)}\n{text}\n")
    nonce += 1
print("end")
