#!/bin/sh
# How long `orb trial` takes over a thousand and over a million exchanges, and `orb filter` over the same exchanges from a
# file, in seconds of processor time, the best of three runs; and the most memory of each. It compares too what both say
# is written. The file has 1.4 GB, in a scratch folder. Nothing here is part of the gate.
set -e
top=$(cd "$(dirname "$0")/.." && pwd)
"$top/orb" mime a/b >/dev/null # builds the program where that is needed
scratch=$(mktemp -d)
trap 'rm -rf "$scratch"' EXIT
python3 "$top/bench/trial.py" "$top/crates/orb/out/orb" "$scratch"
