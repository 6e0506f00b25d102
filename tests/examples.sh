#!/bin/sh
# Runs the program on every example by both words, and compares what it writes, the line that it says and its status
# with what is owed: examples/NAME.filter, examples/NAME.explain, and the rows below.
top=$(cd "$(dirname "$0")/.." && pwd) || exit 70
wrote=$(mktemp) && said=$(mktemp) || exit 70
trap 'rm -f "$wrote" "$said"' EXIT
passed=0
failed=0

# A word, an example, the status and the line that are owed.
compare() {
    "$top/orb" "$1" <"$top/examples/$2.rec" >"$wrote" 2>"$said"
    status=$?
    if [ "$status" = "$3" ] && [ "$(cat "$said")" = "$4" ] && cmp -s "$wrote" "$top/examples/$2.$1"; then
        passed=$((passed + 1))
    else
        echo "examples: $1 of $2.rec DIFFERS (status $status, line '$(cat "$said")')"
        failed=$((failed + 1))
    fi
}

for word in filter explain; do
    compare $word script 0 ""
    compare $word page 0 ""
    compare $word media 0 ""
    compare $word long 0 ""
    compare $word cut 3 "orb: cut at 0"
    compare $word bad-head 2 "orb: bad-head at 0"
    compare $word unknown 0 ""
done
echo "examples: $passed as owed, $failed otherwise"
[ "$failed" = 0 ]
