#!/bin/sh
# Runs the program on texts, heads and chunks at the limits of their sizes, and one past them (tests/sizes.py), where Python is there.
top=$(cd "$(dirname "$0")/.." && pwd) || exit 70
"$top/orb" mime a/b >/dev/null || exit 70 # builds the program where that is needed
if ! command -v python3 >/dev/null; then
    echo "sizes: skipped, there is no python3"
    exit 0
fi
exec python3 "$top/tests/sizes.py" "$top/crates/orb/out/orb"
