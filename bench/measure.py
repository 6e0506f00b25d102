"""How long a program takes over a file on its standard input, and how much memory it has."""

import os
import re
import shutil
import subprocess
import sys
import time


def seconds(words, path):
    """Of processor time, in one run, with the output to /dev/null."""
    with open(path, "rb") as source:
        child = subprocess.Popen(
            words, stdin=source, stdout=subprocess.DEVNULL, stderr=subprocess.DEVNULL
        )
    _, status, used = os.wait4(child.pid, 0)
    if status != 0:
        sys.exit("%s: status %d" % (words[0], status))
    return max(used.ru_utime + used.ru_stime, 1e-3)


def best_seconds(programs, path, rounds):
    """The least that each program takes, in rounds that take each in turn."""
    runs = [[seconds(words, path) for words in programs] for _ in range(rounds)]
    return [min(times) for times in zip(*runs)]


def peak_kilobytes(words, path):
    """The most memory, asked for when all of the file was read and the input is still open."""
    child = subprocess.Popen(words, stdin=subprocess.PIPE, stdout=subprocess.DEVNULL)
    with open(path, "rb") as source:
        shutil.copyfileobj(source, child.stdin)
    child.stdin.flush()
    time.sleep(0.2)
    with open("/proc/%d/status" % child.pid) as status:
        peak = re.search(r"VmHWM:\s*(\d+) kB", status.read())[1]
    child.stdin.close()
    child.wait()
    return peak


def run_kilobytes(words, path):
    """The most memory in one run, to its end. It is no less than that of the process that starts it, some 15,000 kB."""
    with open(path, "rb") as source:
        child = subprocess.Popen(words, stdin=source, stdout=subprocess.DEVNULL, stderr=subprocess.DEVNULL)
    return os.wait4(child.pid, 0)[2].ru_maxrss


def print_row(cells):
    print("| %s |" % " | ".join(str(cell) for cell in cells), flush=True)


def print_head(*names):
    print_row(names)
    print_row(["---"] * len(names))


OPAQUE = b"GET / HTTP/1.1\r\nSec-Fetch-Mode: no-cors\r\n\r\n"


def response(fields, body):
    return b"HTTP/1.1 200 OK\r\n%sContent-Length: %d\r\n\r\n%s" % (fields, len(body), body)


def write_recording(path, exchanges, total):
    """The exchanges, again and again up to so many bytes at least: how many bytes and exchanges there are."""
    size = count = 0
    with open(path, "wb") as out:
        while size < total:
            for exchange in exchanges:
                size += out.write(exchange)
                count += 1
    return size, count
