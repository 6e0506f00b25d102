"""The tables of bench/filter.sh: filter.py PROGRAM RECORDING [OTHER]."""

import sys

from measure import OPAQUE, best_seconds, peak_kilobytes, print_head, print_row, response, write_recording

PROGRAM, RECORDING, *OTHER = sys.argv[1:]
TOTAL = 100_000_000
ROUNDS = 9
CONSENT = b"GET / HTTP/1.1\r\nSec-Fetch-Mode: cors\r\nSec-Fetch-Site: cross-site\r\n\r\n"
PNG = b"\x89PNG\r\n\x1a\n"
IMAGE = b"Content-Type: image/png\r\n"


def in_chunks(body, size):
    pieces = [body[at : at + size] for at in range(0, len(body), size)]
    return (
        b"HTTP/1.1 200 OK\r\nContent-Type: image/png\r\nTransfer-Encoding: chunked\r\n\r\n"
        + b"".join(b"%x\r\n%s\r\n" % (len(piece), piece) for piece in pieces)
        + b"0\r\n\r\n"
    )


def image(size):
    return PNG + b"i" * (size - len(PNG))


KINDS = {
    "images of 2 to 200 kB": [
        OPAQUE + response(IMAGE, image(kilobytes * 1000)) for kilobytes in (2, 5, 12, 30, 80, 200)
    ],
    "images of 8 MB": [OPAQUE + response(IMAGE, image(8_000_000))],
    "images of 100 kB in chunks of 4,096": [OPAQUE + in_chunks(image(100_000), 4096)],
    "styles of 20 kB": [OPAQUE + response(b"Content-Type: text/css\r\n", b"s" * 20_000)],
    "not opaque, of 20 kB": [CONSENT + response(b"Content-Type: application/json\r\n", b"j" * 20_000)],
    "blocked, of 20 kB": [OPAQUE + response(b"Content-Type: text/csv\r\n", b"c" * 20_000)],
    "styles of 64 bytes": [OPAQUE + response(b"Content-Type: text/css\r\n", b"s" * 64)],
}

DD = ["dd", "bs=8192", "status=none"]


def one_program():
    print_head(
        "Recording", "`filter` MB/s", "`explain` MB/s", "`dd bs=8192` MB/s", "`cat` MB/s",
        "exchanges/s", "`filter` kB", "`explain` kB",
    )
    for name, exchanges in KINDS.items():
        size, count = write_recording(RECORDING, exchanges, TOTAL)
        programs = [[PROGRAM, "filter"], [PROGRAM, "explain"], DD, ["cat"]]
        times = best_seconds(programs, RECORDING, ROUNDS)
        row = [name] + ["%.0f" % (size / 1e6 / each) for each in times]
        row += ["%.0f" % (count / times[0])]
        row += [peak_kilobytes(words, RECORDING) for words in programs[:2]]
        print_row(row)


def two_programs(other):
    print_head(
        "Recording", "`filter` MB/s", "the other", "`explain` MB/s", "the other", "`dd bs=8192` MB/s", "`filter` of `dd`",
    )
    for name, exchanges in KINDS.items():
        size, _ = write_recording(RECORDING, exchanges, TOTAL)
        programs = [[PROGRAM, "filter"], [other, "filter"], [PROGRAM, "explain"], [other, "explain"], DD]
        times = best_seconds(programs, RECORDING, ROUNDS)
        row = [name] + ["%.0f" % (size / 1e6 / each) for each in times]
        print_row(row + ["%.2f" % (times[-1] / times[0])])


if OTHER:
    two_programs(*OTHER)
else:
    one_program()
