#!/bin/sh
# How many megabytes of texts a second of processor time `orb filter` and `orb explain` take, and how much memory, on
# recordings of 100 MB: scripts that are typed as octets, minified and with comments; JSON as octets and as JSON; HTML as
# plain text; each in bodies of 2 kB, 100 kB and 5 MB. Beside them `node`, where it is there, which compiles the same
# scripts lazily and reads the same JSON.
#
#     bench/texts.sh [SCRIPT.js ..]
#
# A body is the first bytes of a script, which is read to its end whether or not it is whole. Scripts are those of the files
# named that the program takes for scripts; without names some libraries are looked for below /usr/share and ~/.rustup. Nothing
# here is part of the gate.
# `bench/json.sh` and `bench/scripts.sh` measure the tests alone.
set -e
top=$(cd "$(dirname "$0")/.." && pwd)
"$top/orb" mime a/b >/dev/null # builds the program where that is needed
scratch=$(mktemp -d)
trap 'rm -rf "$scratch"' EXIT
python3 "$top/bench/texts.py" "$top/crates/orb/out/orb" "$scratch" "$@"
