"""Writes some 8 MB of the files that a list names, with a NUL after each: collect_scripts.py LIST TEXTS."""

import sys

seen = set()
with open(sys.argv[2], "wb") as out:
    for name in open(sys.argv[1]).read().split("\n"):
        try:
            text = open(name, "rb").read().decode()
        except (OSError, UnicodeDecodeError):
            continue
        if text not in seen and "\0" not in text:
            seen.add(text)
            out.write(text.encode() + b"\0")
        if sum(map(len, seen)) > 8_000_000:
            break
