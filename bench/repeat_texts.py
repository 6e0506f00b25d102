"""Writes files, or those that a pattern finds, again and again up to 100 MB: repeat_texts.py TEXT PATTERN [FILE ..]."""

import pathlib
import re
import sys

text, pattern, *names = sys.argv[1:]
if not names:
    places = [pathlib.Path("/usr/share"), pathlib.Path.home() / ".rustup"]
    names = [path for place in places for path in sorted(place.rglob("*")) if re.fullmatch(pattern, path.name)]
parts = []
for name in names:
    part = pathlib.Path(name).read_bytes() + b"\n;\n"
    if part not in parts:
        parts.append(part)
whole = b"".join(parts)
if not whole:
    sys.exit("no text")
print("%d texts, %d bytes, again and again up to 100 MB" % (len(parts), len(whole)))
pathlib.Path(text).write_bytes((whole * (100_000_000 // len(whole))).ljust(100_000_000, b"\n"))
