#!/bin/sh
# Runs the word `proxy` before nginx, asked by curl and by a headless Chromium (tests/proxy.py), where they are there. It is
# no part of the gate.
top=$(cd "$(dirname "$0")/.." && pwd) || exit 70
"$top/orb" mime a/b >/dev/null || exit 70 # builds the program where that is needed
for tool in python3 nginx curl; do
    if ! command -v "$tool" >/dev/null; then
        echo "proxy: skipped, there is no $tool"
        exit 0
    fi
done
exec python3 "$top/tests/proxy.py" "$top/crates/orb/out/orb"
