#!/bin/sh
# Programs that misuse a slip do not compile. Such an edit never reaches the prover, so it cannot stand in must-fail/.
# An edit names the code of the error, a file of crates/store, a text that stands in one line of it, and what replaces the text.
# Exits with 1 if an edit does not apply, or is not refused by its code.
cd "$(dirname "$0")/.." || exit 2
copy=$(mktemp -d) || exit 2
trap 'rm -rf "$copy"' EXIT
mkdir "$copy/crates"
grep -E '^(terms|store):' crates.txt >"$copy/crates.txt"
cp -r crates/terms crates/store "$copy/crates"
failed=0
for edit in refused/*.edit; do
    code=$(sed -n 's/^code: //p' "$edit")
    file=$(sed -n 's/^file: //p' "$edit")
    if ! OLD=$(sed -n 's/^old: //p' "$edit") NEW=$(sed -n 's/^new: //p' "$edit") awk '
        { at = index($0, ENVIRON["OLD"]) }
        at { $0 = substr($0, 1, at - 1) ENVIRON["NEW"] substr($0, at + length(ENVIRON["OLD"])); n++ }
        { print }
        END { exit n != 1 }' "crates/store/$file" >"$copy/crates/store/$file"; then
        echo "$edit: does not apply"
        failed=1
    elif (cd "$copy/crates/store" && rt check 2>&1) | grep -q "error\[$code\]"; then
        echo "$edit: refused by $code"
    else
        echo "$edit: NOT refused by $code"
        failed=1
    fi
    cp "crates/store/$file" "$copy/crates/store/$file"
done
exit $failed
