#!/bin/sh
# Compares what `explain` and `filter` give of real and made input with what is owed of it: what a real browser got, the
# log that it saved, and 300 short texts, each a script or none. The input stands beside the clone, in `../shared/data`; where it doesn't,
# there is nothing to compare.
top=$(cd "$(dirname "$0")/.." && pwd) || exit 70
data=$top/../shared/data
if [ ! -d "$data" ]; then
    echo "real input: skipped, there is no $data"
    exit 0
fi
made=$(mktemp -d) || exit 70
trap 'rm -rf "$made"' EXIT
differ=0

# Words, a recording, and what is owed of it.
compare() {
    # The words are split where they have spaces.
    # shellcheck disable=SC2086
    "$top/orb" $1 <"$2" >"$made/wrote"
    status=$?
    if [ "$status" = 0 ] && cmp "$made/wrote" "$3"; then
        echo "real input: $1 of $(basename "$2") is as owed"
    else
        echo "real input: $1 of $(basename "$2") DIFFERS (status $status)"
        differ=1
    fi
}

for word in explain filter; do
    compare $word "$data/chromium-windows.rec" "$data/chromium-windows.$word"
    compare $word "$data/chromium-texts.rec" "$data/chromium-texts.$word"
    compare "$word --policy orb" "$data/made.rec" "$data/made.orb.$word"
    compare "$word --policy=corb" "$data/made.rec" "$data/made.corb.$word"
done
compare har "$data/chromium.har" "$data/chromium.har.explain"
if "$top/tests/scripts.py" "$data/scripts.jsonl" "$made/scripts.rec" "$made/scripts.explain"; then
    compare explain "$made/scripts.rec" "$made/scripts.explain"
else
    differ=1
fi
exit "$differ"
