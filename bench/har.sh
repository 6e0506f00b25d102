#!/bin/sh
# How long `orb har` takes over a log of 50 MB, and how much memory, beside `jq -c .` and Python's `json.load` on the same file;
# and how long `orb type` takes over a response of 1 GB, beside `dd bs=8192`.
#
# It makes both in a scratch folder, and prints a table of each. Each time is the best of five runs, in rounds that take each
# program in turn, with all output to /dev/null. Nothing here is part of the gate.
set -e
top=$(cd "$(dirname "$0")/.." && pwd)
"$top/orb" mime a/b >/dev/null # builds the program where that is needed
scratch=$(mktemp -d)
trap 'rm -rf "$scratch"' EXIT
python3 "$top/bench/har.py" "$top/crates/orb/out/orb" "$scratch/input"
