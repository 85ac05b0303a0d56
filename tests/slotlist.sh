#!/usr/bin/env bash
# Runs the program `slotlist` on each case of tests/slotlist.py, as a file and through a pipe that
# gives it in small pieces. Compares its output, byte by byte, with the model's. The program must be
# built (rt ci, or ./run --build slotlist). The last line is 'slotlist: N passed, M failed'.
set -eu
top=$(cd "$(dirname "$0")/.." && pwd)
room=$(mktemp -d)
trap 'rm -rf "$room"' EXIT
python3 "$top/tests/slotlist.py" files "$room"
slotlist() { "$top/crates/slotlist/out/slotlist"; }
passed=0
failed=0
compare() {
    if cmp -s "$room/got" "$room/$1.out"; then
        passed=$((passed + 1))
    else
        failed=$((failed + 1))
        echo "slotlist: $1 ($2) prints something else"
    fi
}
for file in "$room"/*.in; do
    name=$(basename "$file" .in)
    slotlist <"$file" >"$room/got"
    compare "$name" 'a file'
    dd if="$file" obs=97 status=none | slotlist >"$room/got"
    compare "$name" 'a pipe'
done
echo "slotlist: $passed passed, $failed failed"
[ "$failed" = 0 ]
