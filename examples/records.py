#!/usr/bin/env python3
"""Prints the line of each record that `hms gateway` writes, without the messages that pass.

    hms gateway --conf CONF < RECORDING | python3 records.py [FOLDER]

With FOLDER the K-th message of the stream is written to the file FOLDER/K.http, where it passes.
"""
import sys

while record := sys.stdin.buffer.readline():
    print(record.decode("latin1"), end="", flush=True)
    if record.startswith(b"pass "):
        message = sys.stdin.buffer.read(int(record.split()[-1]) + 1)[:-1]
        if len(sys.argv) > 1:
            with open(f"{sys.argv[1]}/{record.split()[1].decode()}.http", "wb") as file:
                file.write(message)
