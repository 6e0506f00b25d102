#!/usr/bin/env python3
"""Runs the program on many faulty recordings, whole and in pieces, and compares what it answers.

fuzz.py PROGRAM RECORDINGS COUNT SEED KILOBYTES: each of COUNT inputs is made from some exchanges of a file in the folder RECORDINGS
by changes that its number and SEED decide. `filter` and `explain` read it through a pipe that gives the whole input, and through one that gives
pieces of 1 to 7 bytes. Both have to write the same bytes and end with the same line and status, a status from 0 to 4, within
KILOBYTES of address space. The first input that differs is kept as fuzz.failed.
"""
import collections
import fcntl
import multiprocessing
import os
import random
import re
import sys

# What the outside can't cause: a fault of source or sink, want of memory, a signal.
ENDS = range(0, 5)

# Bytes that mean something in a recording, put in where they are least expected.
WORDS = [
    b"\r\n", b"\r\n\r\n", b"\n", b"\r", b":", b",", b";", b'"', b"\\", b" ", b"\t", b"\0", b"\xff", b"0", b"-", b"/", b"*/", b"/*",
    b"HTTP/1.1 200 OK\r\n", b"HTTP/1.1 206 Partial Content\r\n", b"HTTP/1.1 304 \r\n", b"GET / HTTP/1.1\r\n", b"HEAD / HTTP/1.1\r\n",
    b"Content-Length: 3\r\n", b"Content-Length: 99999999999999999999\r\n", b"Transfer-Encoding: chunked\r\n", b"Orb-Media: 7\r\n",
    b"Content-Encoding: gzip\r\n", b"X-Content-Type-Options: nosniff\r\n", b"Content-Range: bytes 0-1023/9000\r\n",
    b"Sec-Fetch-Mode: no-cors\r\n", b"Sec-Fetch-Dest: video\r\n", b"Content-Type: text/html\r\n", b"Content-Type: \r\n",
    b"0\r\n\r\n", b"fffffffffffffff\r\n", b"1\r\nx\r\n", b"GIF89a", b"OggS\0", b"<!--", b"<html>", b")]}'", b"{\"a\":1}", b"(", b"[", b"{",
]


# The most bytes of an input: more than a head may have.
MOST = 70_000

# Where an exchange begins.
REQUEST = re.compile(rb"(?=(?:GET|HEAD|POST) [^\r\n]* HTTP/1.1\r\n)")


def changed(text, chance):
    """The text with one change."""
    at = chance.randrange(len(text) + 1)
    end = min(len(text), at + chance.choice([1, 1, 1, 2, 5, 20, 200]))
    kind = chance.randrange(6)
    if kind == 0:
        return text[:at] + bytes([chance.randrange(256)]) + text[at + 1:]
    if kind == 1:
        return text[:at] + chance.choice(WORDS) + text[at:]
    if kind == 2:
        return text[:at] + text[end:]
    if kind == 3:
        return text[:end] + text[at:end] * (chance.choice([1, 2, 30]) if chance.randrange(200) else 70_000) + text[end:]
    if kind == 4:
        other = chance.randrange(len(text) + 1)
        return text[:at] + text[other:other + chance.randrange(1, 200)] + text[at:]
    return text[:at]


def input_of(number, seeds, seed):
    """The input of that number."""
    chance = random.Random(seed * 1_000_003 + number)
    exchanges = chance.choice(seeds)
    first = chance.randrange(len(exchanges))
    text = b"".join(exchanges[first:first + chance.choice([1, 1, 2, 4])])
    for _ in range(chance.choice([1, 1, 2, 3, 8])):
        text = changed(text, chance)
    return text[:MOST]


def answer(program, word, text, size, kilobytes):
    """What the program writes, its line and its status, of an input that comes in pieces of that size."""
    # A pipe that keeps pieces apart: each read gives one.
    source, pipe = os.pipe2(os.O_DIRECT | os.O_CLOEXEC)
    fcntl.fcntl(pipe, fcntl.F_SETPIPE_SZ, 1 << 20)
    output, line = os.memfd_create("output"), os.memfd_create("line")
    words = ["sh", "-c", 'ulimit -v "$0" && exec "$1" "$2"', str(kilobytes), program, word]
    places = [(os.POSIX_SPAWN_DUP2, file, place) for place, file in enumerate((source, output, line))]
    child = os.posix_spawn("/bin/sh", words, {}, file_actions=places)
    os.close(source)
    try:
        for at in range(0, len(text), size):
            os.write(pipe, text[at:at + size])
    except BrokenPipeError:
        pass
    os.close(pipe)
    status = os.waitstatus_to_exitcode(os.waitpid(child, 0)[1])
    wrote = tuple(os.pread(file, 1 << 24, 0) for file in (output, line))
    os.close(output)
    os.close(line)
    return wrote + (status,)


def tried(job):
    """How the inputs of some numbers end, and the first that differs."""
    program, seeds, numbers, seed, kilobytes = job
    ends = collections.Counter()
    for number in numbers:
        text = input_of(number, seeds, seed)
        for word in ("filter", "explain"):
            whole = answer(program, word, text, 4096, kilobytes)
            pieces = answer(program, word, text, 1 + number % 7, kilobytes)
            if whole != pieces or whole[2] not in ENDS:
                return ends, (number, word, whole[2], pieces[2])
            ends[word, whole[2]] += 1
    return ends, None


def main():
    program, folder, count, seed, kilobytes = sys.argv[1], sys.argv[2], *map(int, sys.argv[3:6])
    texts = [open(os.path.join(folder, name), "rb").read() for name in sorted(os.listdir(folder))]
    seeds = [[exchange for exchange in REQUEST.split(text) if exchange] for text in texts]
    step = 500
    jobs = [(program, seeds, range(at, min(count, at + step)), seed, kilobytes) for at in range(0, count, step)]
    ends = collections.Counter()
    with multiprocessing.Pool() as pool:
        for some, failed in pool.imap_unordered(tried, jobs):
            ends += some
            if failed:
                with open("fuzz.failed", "wb") as kept:
                    kept.write(input_of(failed[0], seeds, seed))
                print(f"fuzz: input {failed[0]} of {seed} DIFFERS under {failed[1]}: {failed[2]} whole, {failed[3]} in pieces")
                return 1
    for word in ("filter", "explain"):
        print(f"fuzz: {word}: " + ", ".join(f"{ends[word, end]} ended with {end}" for end in ENDS))
    print(f"fuzz: {count} inputs, each whole and in pieces under both words: none differs")
    return 0


if __name__ == "__main__":
    sys.exit(main())
