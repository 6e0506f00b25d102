"""The table of bench/hostile.sh: hostile.py PROGRAM RECORDING."""

import sys

from measure import OPAQUE, best_seconds, print_head, print_row, write_recording

PROGRAM, RECORDING = sys.argv[1:]
TOTAL = 20_000_000
ROUNDS = 3
# How many bytes of fields a head may have besides the rest.
FIELDS = 65_000


def response(fields, body=b""):
    return OPAQUE + b"HTTP/1.1 200 OK\r\nContent-Length: %d\r\n%s\r\n%s" % (len(body), fields, body)


def chunked(size, total):
    """A body in chunks of that size."""
    chunk = b"%x\r\n%s\r\n" % (size, b"\0" * size)
    head = b"HTTP/1.1 200 OK\r\nContent-Type: image/png\r\nTransfer-Encoding: chunked\r\n\r\n"
    return OPAQUE + head + chunk * (total // size) + b"0\r\n\r\n"


def media(identifier):
    """An exchange of the media resource of that id."""
    request = b"GET / HTTP/1.1\r\nSec-Fetch-Mode: no-cors\r\nSec-Fetch-Dest: audio\r\nOrb-Media: %d\r\n\r\n"
    return request % identifier + b"HTTP/1.1 200 OK\r\nContent-Type: text/css\r\nContent-Length: 1\r\n\r\nx"


# One field of each size that fits: 120 fields at most, so that the head is good.
PLAIN = b"".join(b"X-%d: %s\r\n" % (number, b"v" * 530) for number in range(120))
SHORT = b"".join(b"X: %s\r\n" % (b"v") for _ in range(120))
PARAMETERS = b";".join(b"p%d=v" % number for number in range(7_000))[:FIELDS]
TYPES = b"".join(b"Content-Type: text/html;x=%s\r\n" % (b"v" * 600) for _ in range(100))

# A name, a recording that is ordinary, and recordings that are made to be slow.
KINDS = [
    ("head of 64 kB", [response(PLAIN)], {
        "of short fields": [response(SHORT)],
        "of one Content-Type with commas": [response(b"Content-Type: %s\r\n" % (b"," * FIELDS))],
        "of nosniff with commas": [response(b"X-Content-Type-Options: %s\r\n" % (b"," * FIELDS))],
        "of codings with commas": [response(b"Content-Encoding: %s\r\n" % (b"," * FIELDS))],
        "of one Content-Type with quotation marks": [response(b"Content-Type: %s\r\n" % (b'"\\' * (FIELDS // 2)))],
        "of 7,000 parameters": [response(b"Content-Type: text/html;%s\r\n" % PARAMETERS)],
        "of 100 Content-Type fields": [response(TYPES)],
    }),
    ("body in chunks of 4,096", [chunked(4_096, 1_000_000)], {
        "of 1": [chunked(1, 1_000_000)],
        "of 1, each size of 15 digits": [chunked(1, 1_000_000).replace(b"\r\n1\r\n", b"\r\n000000000000001\r\n")],
    }),
    ("4,096 media ids in order", [media(number) for number in range(4_096)], {
        "in falling order": [media(number) for number in reversed(range(4_096))],
        "alike in their low bits": [media(number << 51) for number in range(4_096)],
    }),
]

# Those of which docs/DECISIONS.md says why they are slower than that.
SLOW = {"of one Content-Type with commas", "of 1", "of 1, each size of 15 digits"}

print_head("Recording", "`filter` MB/s", "`explain` MB/s", "of its ordinary kind")
worst = 1.0
for ordinary, exchanges, others in KINDS:
    owed = None
    for name, some in [(ordinary, exchanges)] + list(others.items()):
        size, _ = write_recording(RECORDING, some, TOTAL)
        times = best_seconds([[PROGRAM, "filter"], [PROGRAM, "explain"]], RECORDING, ROUNDS)
        speeds = [size / 1e6 / each for each in times]
        owed = owed or speeds
        part = min(speed / ordinary_speed for speed, ordinary_speed in zip(speeds, owed))
        if name not in SLOW:
            worst = min(worst, part)
        row = [name if name == ordinary else "- " + name] + ["%.0f" % speed for speed in speeds] + ["%.2f" % part]
        print_row(row)
print("\nBut for those that docs/DECISIONS.md names, the slowest has %.2f of the speed of its ordinary kind." % worst)
sys.exit(worst < 0.05)
