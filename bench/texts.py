"""The table of bench/texts.sh: texts.py PROGRAM SCRATCH [SCRIPT.js ..]."""

import json
import pathlib
import subprocess
import sys

from measure import OPAQUE, best_seconds, peak_kilobytes, print_head, print_row, response, seconds, write_recording

PROGRAM, SCRATCH, *NAMES = sys.argv[1:]
HERE = pathlib.Path(__file__).parent
TOTAL = 100_000_000
ROUNDS = 3
SIZES = {"2 kB": 2_000, "100 kB": 100_000, "5 MB": 5_000_000}
LIBRARIES = ("jquery", "underscore", "sorttable", "ace", "mark", "elasticlunr", "clipboard")
OCTETS = b"Content-Type: application/octet-stream\r\n"


def files(pattern):
    places = [pathlib.Path("/usr/share"), pathlib.Path.home() / ".rustup"]
    texts = [path.read_bytes() for place in places for path in sorted(place.rglob(pattern)) if path.is_file()]
    return list(dict.fromkeys(texts))


def is_script(text):
    """Whether the program takes the whole text for a script."""
    run = subprocess.run([PROGRAM, "explain"], input=OPAQUE + response(OCTETS, text), capture_output=True)
    return run.stdout.startswith(b"1 allow script ")


def scripts():
    """Those that are minified, with more than 200 bytes a line, and the others."""
    texts = [pathlib.Path(name).read_bytes() for name in NAMES]
    for library in LIBRARIES if not NAMES else ():
        texts += files(library + "*.js")
    texts = [text for text in texts if is_script(text)]
    minified = [text for text in texts if len(text) > 200 * text.count(b"\n")]
    return minified, [text for text in texts if text not in minified]


def bodies(texts, size):
    """The first bytes of each text that is so long, or of all of them, one after another."""
    long = [text[:size] for text in texts if len(text) >= size]
    if long or not texts:
        return long[:20]
    whole = b"".join(text + b"\n;\n" for text in texts)
    return [(whole * (size // len(whole) + 1))[:size]]


def records(size):
    """A JSON text of some so many bytes."""
    record = {"id": 1, "name": "a name", "tags": ["x", "y"], "price": 12.5, "ok": True, "none": None}
    one = json.dumps(record, separators=(",", ":"))
    return [("[" + ",".join([one] * max(1, size // (len(one) + 1))) + "]").encode()]


def kinds():
    minified, plain = scripts()
    pages = files("*.html")
    for name, size in SIZES.items():
        yield "scripts, minified, " + name, OCTETS, bodies(minified, size), "script"
        yield "scripts with comments, " + name, OCTETS, bodies(plain, size), "script"
        yield "JSON as octets, " + name, OCTETS, records(size), "json"
        yield "JSON as JSON, " + name, b"Content-Type: application/json\r\n", records(size), "json"
        yield "HTML as plain text, " + name, b"Content-Type: text/plain\r\n", bodies(pages, size), None


def node_speed(what, texts, start):
    """Megabytes a second of `node` over the same bodies, without the time that it takes to start."""
    path = SCRATCH + "/bodies"
    size, _ = write_recording(path, [b"%d\n%s" % (len(text), text) for text in texts], TOTAL)
    spent = min(seconds(["node", HERE / "texts.js", what, path], "/dev/null") for _ in range(ROUNDS))
    return "%.0f" % (size / 1e6 / max(spent - start, 1e-3))


def have(program):
    return subprocess.run(["which", program], capture_output=True).returncode == 0


def main():
    recording = SCRATCH + "/recording"
    programs = [[PROGRAM, "filter"], [PROGRAM, "explain"]]
    empty = SCRATCH + "/empty"
    pathlib.Path(empty).touch()
    with_node = have("node")
    start = seconds(["node", HERE / "texts.js", "script", empty], "/dev/null") if with_node else 0
    print_head("Bodies", "`filter` MB/s", "`explain` MB/s", "`node` MB/s", "`filter` kB", "`explain` kB")
    for name, fields, texts, what in kinds():
        if not texts:
            continue
        size, _ = write_recording(recording, [OPAQUE + response(fields, text) for text in texts], TOTAL)
        times = best_seconds(programs, recording, ROUNDS)
        row = [name] + ["%.0f" % (size / 1e6 / each) for each in times]
        row.append(node_speed(what, texts, start) if with_node and what else "")
        row += [peak_kilobytes(words, recording) for words in programs]
        print_row(row)


main()
