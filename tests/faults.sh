#!/bin/sh
# Lets each allocation, each read and each write of the program fail in turn (tests/faults.py says what is owed). It is no
# part of the gate. It wants a C compiler, and Python 3.
top=$(cd "$(dirname "$0")/.." && pwd) || exit 70
"$top/orb" mime a/b >/dev/null || exit 70 # builds the program where that is needed
made=$(mktemp -d) || exit 70
trap 'rm -rf "$made"' EXIT
cc -shared -fPIC -O1 -o "$made/failing.so" "$top/tests/failing.c" -ldl || exit 70
cat "$top/examples/page.rec" "$top/examples/media.rec" "$top/examples/long.rec" >"$made/recording"
"$top/tests/faults.py" "$top/crates/orb/out/orb" "$made/failing.so" "$made/recording"
