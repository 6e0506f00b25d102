#!/usr/bin/env python3
"""Runs the program on inputs at the limits of their sizes, and one past them.

sizes.py PROGRAM: each row is a word, an input, and what is owed: the output, the line and the status. The program reads each input
through a pipe in pieces of 4,096 bytes, and in pieces of 1, within the memory that tests/fuzz.sh allows.
"""
import sys

from fuzz import answer

KILOBYTES = 12_288
REQUEST = b"GET / HTTP/1.1\r\nSec-Fetch-Mode: no-cors\r\n\r\n"
STYLE = b"HTTP/1.1 200 OK\r\nContent-Type: text/css\r\nContent-Length: 0\r\n"
CHUNKED = b"HTTP/1.1 200 OK\r\nTransfer-Encoding: chunked\r\n\r\n"
MILLION = 1_000_000


def text(body, verdict):
    """A body that is read as text, and the line of its exchange."""
    head = b"HTTP/1.1 200 OK\r\nContent-Type: application/octet-stream\r\nContent-Length: %d\r\n\r\n" % len(body)
    line = b"1 %s na %d\n" % (verdict, len(body))
    return "explain", REQUEST + head + body, (line, b"", 0)


def script(body):
    return text(body, b"allow script")


def other(body):
    return text(body, b"block not-script")


def written(response):
    """A response that goes out as it is."""
    return "filter", REQUEST + response, (response, b"", 0)


def refused(response, line, status):
    return "filter", REQUEST + response, (b"", line, status)


def nested(opening, middle, closing):
    """A text with 1,024 levels, and with one more."""
    return [
        kind(opening * count + middle + closing * count)
        for kind, count in ((script, 1024), (other, 1025))
    ]


ROWS = (
    nested(b"(", b"0", b")")
    + nested(b"if(a)", b"b;", b"")
    + nested(b"a?", b"b", b":c")
    + nested(b"do ", b";", b"while(0);")
    + [
        # chains are no levels
        script(b"a?b:" * 5000 + b"c"),
        script(b"if(a)b;" + b"else if(a)b;" * 5000),
        # names, strings and comments
        script(b"a" * MILLION),
        script(b'a="' + b"a" * MILLION + b'"'),
        script(b"/*" + b" " * MILLION + b"*/"),
        other(b"/*" + b" " * MILLION),
        # JSON
        text(b"[" * 1024 + b"0" + b"]" * 1024, b"block json"),
        other(b"[" * 1025 + b"0" + b"]" * 1025),
        other(b'{"a":' * 1024 + b"0" + b"}" * 1024),
        # a head of 65,536 bytes
        written(STYLE + b"X: " + b"a" * 65_469 + b"\r\n\r\n"),
        refused(STYLE + b"X: " + b"a" * 65_470 + b"\r\n\r\n", b"orb: head limit at 43\n", 4),
        # 128 fields
        written(STYLE + b"X: a\r\n" * 126 + b"\r\n"),
        refused(STYLE + b"X: a\r\n" * 127 + b"\r\n", b"orb: bad-head at 43\n", 2),
        # 15 digits of a chunk's size
        refused(CHUNKED + b"f" * 15 + b"\r\n", b"orb: cut at 0\n", 3),
        refused(CHUNKED + b"f" * 16 + b"\r\n", b"orb: bad-chunk at 105\n", 2),
    ]
)


def main():
    program = sys.argv[1]
    differ = 0
    for number, (word, recording, owed) in enumerate(ROWS):
        for size in (4096, 1):
            given = answer(program, word, recording, size, KILOBYTES)
            if given != owed:
                print(f"sizes: {word} of row {number} DIFFERS in pieces of {size}: {given[0][:80]} {given[1:]}")
                differ += 1
    print(f"sizes: {len(ROWS)} inputs, each in pieces of 4,096 and of 1, {differ} otherwise than owed")
    return 1 if differ else 0


if __name__ == "__main__":
    sys.exit(main())
