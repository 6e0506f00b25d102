#!/bin/sh
# How many megabytes of input a second of processor time `orb filter` and `orb explain` take, and how much
# memory, on recordings of 100 MB, beside `cat` and `dd bs=8192` on the same file.
#
# It makes the recordings in a scratch folder, one at a time, and prints a table. Each speed is the best of nine
# runs, in rounds that take each program in turn, with all output to /dev/null. Nothing here is part of the gate.
#
# With a word, the path of another `orb` (of an older commit, say), it sets the two programs side by side.
set -e
top=$(cd "$(dirname "$0")/.." && pwd)
"$top/orb" mime a/b >/dev/null # builds the program where that is needed
scratch=$(mktemp -d)
trap 'rm -rf "$scratch"' EXIT
python3 "$top/bench/filter.py" "$top/crates/orb/out/orb" "$scratch/recording" "$@"
