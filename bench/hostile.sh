#!/bin/sh
# What a stranger may cause: how many megabytes of input a second of processor time `orb filter` and `orb explain` take on
# recordings that are made to be slow, beside ordinary ones of the same kind. None may be below a twentieth of its kind,
# but for those of which docs/DECISIONS.md says why.
#
# It makes the recordings in a scratch folder, one at a time, and prints a table. Each speed is the best of three runs, with
# all output to /dev/null. Nothing here is part of the gate.
set -e
top=$(cd "$(dirname "$0")/.." && pwd)
"$top/orb" mime a/b >/dev/null # builds the program where that is needed
scratch=$(mktemp -d)
trap 'rm -rf "$scratch"' EXIT
python3 "$top/bench/hostile.py" "$top/crates/orb/out/orb" "$scratch/recording"
