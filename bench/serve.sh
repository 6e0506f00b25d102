#!/bin/sh
# How many connections of one exchange each `orb serve` takes a second over the loopback, one after the other, with a client
# in Python, and its memory after the first and after the last of 10,000. Nothing here is part of the gate.
set -e
top=$(cd "$(dirname "$0")/.." && pwd)
"$top/orb" mime a/b >/dev/null # builds the program where that is needed
PYTHONPATH=$top/tests python3 "$top/bench/serve.py" "$top/crates/orb/out/orb" 10000
