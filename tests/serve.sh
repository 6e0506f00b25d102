#!/bin/sh
# Runs the word `serve` over real sockets of the loopback (tests/serve.py), where Python is there.
top=$(cd "$(dirname "$0")/.." && pwd) || exit 70
"$top/orb" mime a/b >/dev/null || exit 70 # builds the program where that is needed
if ! command -v python3 >/dev/null; then
    echo "serve: skipped, there is no python3"
    exit 0
fi
exec python3 "$top/tests/serve.py" "$top/crates/orb/out/orb"
