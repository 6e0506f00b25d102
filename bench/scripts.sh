#!/bin/sh
# How many megabytes a second scripts go through `ScriptTest`, and through `Decoder` and `Lexer` with the goals of a plain
# rule, in pieces of 8,192 bytes, beside a loop in C that only decodes and beside `node`, if it is there, which compiles the
# same scripts lazily.
#
#     bench/scripts.sh [SCRIPT.js ..]
#
# Scripts are to be of ECMA-262 5.1: after a character that begins no token a lexer has no work. Without names some are
# looked for below /usr/share and ~/.rustup. It clones the repository into a scratch folder, adds two programs there, and
# runs them. Nothing here is part of the gate.
set -e
. "$(dirname "$0")/lib.sh"
text=$scratch/text
python3 "$top/bench/repeat_texts.py" "$text" '(jquery|underscore|sorttable|ace|mark|elasticlunr|clipboard).*[.]js' "$@"
if command -v cc >/dev/null; then
    cc -O2 -o "$scratch/decode" "$top/bench/decode.c"
    "$scratch/decode" "$text"
fi
if command -v node >/dev/null; then
    node "$top/bench/compile.js" "$text"
fi
clone text_stream es5_lexer es5_trees es5_machine
build test_speed es5_machine
"$scratch/test_speed" <"$text"
build lexer_speed 'text_stream es5_lexer arrayvec'
"$scratch/lexer_speed" <"$text"
