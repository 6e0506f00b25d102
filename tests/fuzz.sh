#!/bin/sh
# Runs the program on 100,000 faulty recordings, or on as many as the first word says, made from the examples and, where it
# stands beside the clone, the input in ../shared/data (tests/fuzz.py says how, and what is owed). The second word is
# the seed. It is no part of the gate. It wants Python 3.
top=$(cd "$(dirname "$0")/.." && pwd) || exit 70
"$top/orb" mime a/b >/dev/null || exit 70 # builds the program where that is needed
made=$(mktemp -d) || exit 70
trap 'rm -rf "$made"' EXIT
cp "$top"/examples/*.rec "$made" || exit 70
for recording in "$top"/../shared/data/*.rec; do
    [ -f "$recording" ] && cp "$recording" "$made"
done
# `filter` holds the 8,192 kB of the body limit and less than 1,024 besides; the rest is the C library and the program's text.
"$top/tests/fuzz.py" "$top/crates/orb/out/orb" "$made" "${1:-100000}" "${2:-1}" 12288
