#!/usr/bin/env python3
"""Makes a recording of texts, each the body of an untyped response, and the lines that are owed of it.

The texts come as JSON, one object a line: the text, and whether it is a script. A script that is JSON besides is
blocked as JSON."""

import json
import sys


def refuse(constant):
    raise ValueError(constant)


def is_json(text):
    try:
        json.loads(text, parse_constant=refuse)
    except ValueError:
        return False
    return True


def line(number, row, size):
    if not row["script"]:
        answer = "block not-script"
    elif is_json(row["text"]):
        answer = "block json"
    else:
        answer = "allow script"
    return f"{number} {answer} na {size}\n"


def main(texts, recording, lines):
    with open(texts, encoding="utf-8") as given, open(recording, "wb") as made, open(lines, "w") as owed:
        for number, text in enumerate(given, 1):
            row = json.loads(text)
            body = row["text"].encode("utf-8")
            made.write(b"GET / HTTP/1.1\r\nSec-Fetch-Mode: no-cors\r\n\r\n")
            made.write(b"HTTP/1.1 200 OK\r\nContent-Type: application/octet-stream\r\n")
            made.write(b"Content-Length: %d\r\n\r\n" % len(body) + body)
            owed.write(line(number, row, len(body)))


main(*sys.argv[1:])
