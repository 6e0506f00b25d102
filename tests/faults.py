#!/usr/bin/env python3
"""Lets each allocation, each read and each write of the program fail in turn, and looks at what it answers.

faults.py PROGRAM LIBRARY RECORDING: LIBRARY is tests/failing.c, built to be preloaded. With an allocation refused the program says
that there is no memory, has read nothing and written nothing, or does without and answers as ever. With a read or a write refused or
interrupted it says so, and what it wrote begins what is owed. Where reads and writes move a byte at a time it answers as ever.
"""
import errno
import os
import sys
import tempfile

PROGRAM, LIBRARY, RECORDING = sys.argv[1:4]
NO_MEMORY = (7, b"orb: no memory\n")
READ_FAULT = (5, b"orb: read fault\n")
WRITE_FAULT = (6, b"orb: write fault\n")
# More than there are calls of a kind.
MOST = 10_000

# Words that read the recording, and words that read nothing. An address that is not of this machine ends `serve`.
READING = [["filter"], ["explain"], ["filter", "--policy", "corb", "--limit=1024"]]
OTHERS = [["mime", "text/html;a=b"], ["trial", "0", "8"], ["serve", "192.0.2.1:1", "1"], ["filtr"]]


class Answer:
    """What the program does where a call fails."""

    def __init__(self, words, **settings):
        told, tell = os.pipe()
        os.set_inheritable(tell, True)
        with open(RECORDING, "rb") as source, tempfile.TemporaryFile() as output, tempfile.TemporaryFile() as line:
            places = [(os.POSIX_SPAWN_DUP2, file.fileno(), place) for place, file in enumerate((source, output, line))]
            environment = {"LD_PRELOAD": LIBRARY, "FAIL_TOLD": str(tell)}
            environment.update({name: str(value) for name, value in settings.items()})
            child = os.posix_spawn(PROGRAM, [PROGRAM] + words, environment, file_actions=places)
            os.close(tell)
            status = os.waitstatus_to_exitcode(os.waitpid(child, 0)[1])
            self.read = os.lseek(source.fileno(), 0, os.SEEK_CUR)
            self.wrote = os.pread(output.fileno(), 1 << 24, 0)
            self.end = (status, os.pread(line.fileno(), 1 << 16, 0))
        self.failed = os.read(told, 1) == b"!"
        os.close(told)

    def is_as(self, other):
        return (self.end, self.read, self.wrote) == (other.end, other.read, other.wrote)


class Tally:
    """What was tried, and what wasn't as owed."""

    tried = 0
    lost = 0

    def take(self, holds, words, what):
        self.tried += 1
        if not holds:
            self.lost += 1
            print(f"faults: {' '.join(words)} with {what}: NOT as owed")


def each(words, name, **settings):
    """The answers with the first, the second and each further call of a kind failing, up to the last that there is."""
    for number in range(1, MOST):
        answer = Answer(words, **{name: number}, **settings)
        if not answer.failed:
            return
        yield number, answer


def refuse_memory(words, tally):
    owed = Answer(words)
    for number, answer in each(words, "FAIL_ALLOC"):
        untouched = (answer.end, answer.read, answer.wrote) == (NO_MEMORY, 0, b"")
        tally.take(untouched or answer.is_as(owed), words, f"allocation {number} refused")


def fail_calls(words, name, fault, tally):
    owed = Answer(words)
    for error in (errno.EIO, errno.EINTR):
        for number, answer in each(words, name, FAIL_ERROR=error):
            holds = answer.end == fault and owed.wrote.startswith(answer.wrote)
            tally.take(holds, words, f"{name} {number} and error {error}")


def go_short(words, tally):
    tally.take(Answer(words, SHORT_IO=1).is_as(Answer(words)), words, "a byte at a time")


def main():
    memory, outside = Tally(), Tally()
    for words in READING + OTHERS:
        refuse_memory(words, memory)
    for words in READING:
        fail_calls(words, "FAIL_READ", READ_FAULT, outside)
    for words in READING + OTHERS[:2]:
        fail_calls(words, "FAIL_WRITE", WRITE_FAULT, outside)
        go_short(words, outside)
    print(f"faults: {memory.tried} allocations refused, {memory.lost} lost")
    print(f"faults: {outside.tried} reads and writes failed or cut short, {outside.lost} lost")
    return 1 if memory.lost or outside.lost or not memory.tried or not outside.tried else 0


if __name__ == "__main__":
    sys.exit(main())
