#!/bin/sh
# How many nanoseconds a `Machine` of `es5_machine` takes for a token, on the tokens of 8 MB of JavaScript.
#
# The JavaScript is that of the files named, or of what /usr/share and node's own packages have; files that are no
# scripts of ECMA-262 5.1 are left out. The tokens are lexed into memory before, by `next_token` under the machine's
# goals. It clones the repository into a scratch folder, adds a program there, and runs it. Nothing here is part
# of the gate.
set -e
. "$(dirname "$0")/lib.sh"
if [ $# -eq 0 ]; then
    find /usr/share /usr/lib/node_modules -name '*.js' -type f -size +8k 2>/dev/null | sort >"$scratch/files"
else
    printf '%s\n' "$@" >"$scratch/files"
fi
python3 "$top/bench/collect_scripts.py" "$scratch/files" "$scratch/texts"
clone text_stream es5_lexer es5_trees es5_machine
build machine_speed 'es5_lexer es5_machine'
"$scratch/machine_speed" <"$scratch/texts"
