"""The table of bench/json.sh: json_tests.py SCRATCH, where the program json_speed stands."""

import glob
import json
import os
import subprocess
import sys

scratch = sys.argv[1]
TOTAL = 100_000_000
ROUNDS = 5


def records(count):
    for n in range(count):
        yield {
            "id": n,
            "name": "user number %d" % n,
            "email": "user%d@example.com" % n,
            "active": n % 3 == 0,
            "score": n * 1.25,
            "tags": ["alpha", "beta", "gamma"],
            "address": {"street": "%d Main Street" % n, "city": "Springfield", "zip": None},
            "text": "Lorem ipsum dolor sit amet, \"consectetur\" adipiscing elit, sed do\neiusmod tempor.",
        }


def repeated(item):
    return "[" + ",".join([item] * (TOTAL // (len(item.encode()) + 1))) + "]"


def real():
    files = glob.glob("/usr/share/**/*.json", recursive=True) + glob.glob("/usr/lib/**/*.json", recursive=True)
    texts = []
    for name in files:
        try:
            text = open(name, encoding="utf-8").read()
            json.loads(text)
            texts.append(text)
        except (OSError, ValueError):
            pass
    return repeated(",".join(texts)) if texts else None


TEXTS = {
    "records, minified": lambda: repeated(json.dumps(list(records(1000)), separators=(",", ":"))),
    "records, indented": lambda: repeated(json.dumps(list(records(1000)), indent=4)),
    "numbers": lambda: repeated(json.dumps([n * 0.37 - 900 for n in range(5000)])),
    "text of two-byte letters": lambda: repeated(json.dumps(["Съешь же ещё этих мягких французских булок"] * 500, ensure_ascii=False)),
    "files of /usr": real,
}


def run(command, text):
    with open(text, "rb") as source, open(os.devnull, "wb") as sink:
        child = subprocess.Popen(command, stdin=source, stdout=sink, stderr=sink)
        _, status, used = os.wait4(child.pid, 0)
    return status, max(used.ru_utime + used.ru_stime, 1e-3)


programs = {"JsonTest": [scratch + "/json_speed"], "json_verify": ["json_verify", "-q"], "dd bs=8192": ["dd", "bs=8192"]}
print("| JSON | MB | " + " | ".join(name + " MB/s" for name in programs) + " |")
print("|---|---|" + "---|" * len(programs))
for name, make in TEXTS.items():
    text = make()
    if text is None:
        continue
    path = scratch + "/text"
    data = text.encode()
    with open(path, "wb") as file:
        file.write(data)
    with open(path, "rb") as source:
        answer = subprocess.run([scratch + "/json_speed"], stdin=source, capture_output=True).stdout
    assert answer == b"true\n", (name, answer)
    best = {}
    for _ in range(ROUNDS):
        for program, command in programs.items():
            status, seconds = run(command, path)
            assert status == 0, (program, status)
            best[program] = min(best.get(program, 1e9), seconds)
    speeds = ["%.0f" % (len(data) / 1e6 / best[program]) for program in programs]
    print("| " + name + " | %.0f | " % (len(data) / 1e6) + " | ".join(speeds) + " |", flush=True)
