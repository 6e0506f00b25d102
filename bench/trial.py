"""The table of bench/trial.sh: trial.py PROGRAM SCRATCH."""

import os
import subprocess
import sys

from measure import OPAQUE, print_head, print_row

PROGRAM, SCRATCH = sys.argv[1:]
COUNTS = (1000, 1_000_000)
ROUNDS = 3
MEDIA = b"GET / HTTP/1.1\r\nSec-Fetch-Mode: no-cors\r\nSec-Fetch-Dest: video\r\nOrb-Media: %d\r\n\r\n"


def head(status, *fields):
    return b"HTTP/1.1 %s\r\n%s\r\n" % (status, b"".join(field + b"\r\n" for field in fields))


def in_chunks(body):
    pieces = [body[at : at + 100] for at in range(0, len(body), 100)]
    return b"".join(b"%x\r\n%s\r\n" % (len(piece), piece) for piece in pieces) + b"0\r\n\r\n"


def exchange(number):
    m, kind = number % 1009, number % 8
    body = (
        b"x;" * (m + 1),
        b"a" * (m + 1),
        b"\x89PNG\r\n\x1a\n" + b"\0" * m,
        b"var a=0;" * (m + 1),
        b"[0" + b",0" * m + b"]",
        b"a b " * (m + 1),
        b"\xff\xd8\xff" + b"\0" * m,
        b"OggS\0" + b"\0" * m,
    )[kind]
    length = b"Content-Length: %d" % len(body)
    octets = b"Content-Type: application/octet-stream"
    response = (
        lambda: head(b"200 OK", b"Content-Type: text/javascript", length),
        lambda: head(b"200 OK", b"Content-Type: text/html", b"X-Content-Type-Options: nosniff", length),
        lambda: head(b"200 OK", length),
        lambda: head(b"200 OK", octets, length),
        lambda: head(b"200 OK", octets, length),
        lambda: head(b"200 OK", b"Content-Type: text/plain", length),
        lambda: head(b"200 OK", b"Content-Type: image/jpeg", b"Transfer-Encoding: chunked"),
        lambda: head(
            b"206 Partial Content",
            b"Content-Type: video/ogg",
            b"Content-Range: bytes 0-%d/%d" % (len(body) - 1, len(body)),
            length,
        ),
    )[kind]()
    request = MEDIA % (number // 8 % 16) if kind == 7 else OPAQUE
    return request + response + (in_chunks(body) if kind == 6 else body)


def write(path, count):
    period = 8 * 1009 * 16
    texts = [exchange(number) for number in range(min(count, period))]
    with open(path, "wb") as out:
        for number in range(count):
            out.write(texts[number % period])
    return os.path.getsize(path)


def run(words, path):
    """Seconds of processor time, most kilobytes of memory, and what was written."""
    with open(path, "rb") as source:
        timed = ["/usr/bin/time", "-f", "%U %S %M"] + words
        child = subprocess.Popen(timed, stdin=source, stdout=subprocess.PIPE, stderr=subprocess.PIPE)
        wrote = 0
        while piece := child.stdout.read(1 << 20):
            wrote += len(piece)
            last = piece
        user, system, kilobytes = child.stderr.read().split()
    if child.wait() != 0:
        sys.exit("%s: status %d" % (words, child.returncode))
    return float(user) + float(system), int(kilobytes), wrote, last


print_head("Exchanges", "MB", "`trial` s", "`filter` of a file s", "`trial` kB", "`filter` kB")
for count in COUNTS:
    path = SCRATCH + "/recording"
    size = write(path, count)
    trials = [run([PROGRAM, "trial", "0", str(count)], os.devnull) for _ in range(ROUNDS)]
    filters = [run([PROGRAM, "filter"], path) for _ in range(ROUNDS)]
    line = trials[0][3].decode().split()
    if int(line[-1]) != filters[0][2]:
        sys.exit("trial says %s bytes, filter wrote %d" % (line[-1], filters[0][2]))
    row = [count, "%.0f" % (size / 1e6)]
    row += ["%.2f" % min(each[0] for each in runs) for runs in (trials, filters)]
    row += [max(each[1] for each in runs) for runs in (trials, filters)]
    print_row(row)
