#!/bin/sh
# How many megabytes of JSON a second of processor time `JsonTest` takes in pieces of 8,192 bytes, beside yajl's `json_verify`
# (Debian's yajl-tools).
#
# It clones the repository into a scratch folder, adds a program there, makes texts of 100 MB, and prints a table. Each speed
# is the best of five runs, in rounds that take each program in turn. Nothing here is part of the gate.
set -e
. "$(dirname "$0")/lib.sh"
clone text_stream json_recogniser
build json_speed json_recogniser
python3 "$top/bench/json_tests.py" "$scratch"
