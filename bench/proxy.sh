#!/bin/sh
# How many exchanges `orb proxy` relays a second, one a connection and one after the other, beside nginx's `proxy_pass` and
# tinyproxy before the same upstream: an nginx that gives a script of 10,000 bytes. And its memory after the first and after
# the last of 10,000 connections. It starts all of them on the loopback, and stops what it started. Nothing here is part of
# the gate.
set -e
top=$(cd "$(dirname "$0")/.." && pwd)
"$top/orb" mime a/b >/dev/null # builds the program where that is needed
for tool in python3 nginx tinyproxy; do
    if ! command -v "$tool" >/dev/null; then
        echo "proxy: skipped, there is no $tool"
        exit 0
    fi
done
PYTHONPATH=$top/tests python3 "$top/bench/proxy.py" "$top/crates/orb/out/orb" 10000
