#!/bin/sh
# The bugs that were planted by hand, docs/planted/CRATE/BUG.edit: checks that each still applies, and makes docs/PLANTED.md.
# Usage: docs/planted.sh [--write]       it fails where a bug no longer applies or PLANTED.md is not up to date
#        docs/planted.sh --try CRATE     plants the bugs of a crate, one at a time, and tells what the prover says of each
# A bug is written as a must-fail edit is, with two lines more: "bug: WHAT" and "verdict: KIND WHY", of which KIND is
# refused (by the proof), tested (only a test fails, and WHY no clause can), same (the program means the same) or open.
set -u
cd "$(dirname "$0")/.." || exit 1

# Tries the bugs of a crate in the place of its must-fail edits, which it puts back at the end.
try_crate() {
    tried=$1
    kept=$(mktemp -d)
    mkdir -p "crates/$tried/must-fail"
    mv "crates/$tried/must-fail" "$kept/edits"
    trap 'rm -rf "crates/$tried/must-fail"; mv "$kept/edits" "crates/$tried/must-fail"; rmdir "$kept"' EXIT
    trap 'exit 1' INT TERM
    mkdir "crates/$tried/must-fail"
    cp docs/planted/"$tried"/*.edit "crates/$tried/must-fail/"
    rt must-fail "$tried"
}

if [ "${1:-}" = --try ]; then
    try_crate "$2"
    exit
fi
made=$(mktemp)
trap 'rm -f "$made"' EXIT
bad=0

# How many of a crate's planted bugs have a verdict.
count() {
    grep -lE "^verdict: $2( |\$)" docs/planted/"$1"/*.edit 2>/dev/null | wc -l
}

# A bug applies where each of its old lines stands exactly once in its file.
applies() {
    file=
    while IFS= read -r line; do
        case $line in
        'file: '*) file=crates/$1/${line#file: } ;;
        'old: '*) [ "$(grep -cF -- "${line#old: }" "$file")" = 1 ] || return 1 ;;
        esac
    done <"$2"
}

{
    echo "# Bugs planted by hand"
    echo
    echo "Made of docs/planted by docs/planted.sh, which checks that each bug still applies. Each was planted in code that was proved"
    echo "(VERIFICATION.md says how); the must-fail edits of a crate are bugs of the same kind, which the gate tries in each run."
    echo
    echo "| Crate | Must-fail edits | Planted beside them | Refused by the proof | Refused by a test alone | The same program | Open |"
    echo "|---|---|---|---|---|---|---|"
} >"$made"
for folder in docs/planted/*/; do
    crate=$(basename "$folder")
    for bug in "$folder"*.edit; do
        applies "$crate" "$bug" || { echo "planted: $bug no longer applies"; bad=1; }
        grep -qE '^bug: .' "$bug" || { echo "planted: $bug has no line bug:"; bad=1; }
        grep -qE '^verdict: (refused|tested .+|same .+|open .+)$' "$bug" || { echo "planted: $bug has no verdict"; bad=1; }
    done
    edits=$(ls "crates/$crate/must-fail" 2>/dev/null | wc -l)
    echo "| \`$crate\` | $edits | $(ls "$folder" | wc -l) | $(count "$crate" refused) | $(count "$crate" tested) |" \
        "$(count "$crate" same) | $(count "$crate" open) |" >>"$made"
done
{
    echo
    echo "| Crate | Bug | Verdict |"
    echo "|---|---|---|"
    for bug in docs/planted/*/*.edit; do
        echo "| \`$(basename "$(dirname "$bug")")\` | $(sed -n 's/^bug: //p' "$bug") | $(sed -n 's/^verdict: //p' "$bug") |"
    done
} >>"$made"
echo "planted: $(ls docs/planted/*/*.edit | wc -l) bugs, $(cat docs/planted/*/*.edit | grep -cE '^verdict: refused') refused by the proof"
if [ "${1:-}" = --write ]; then
    cp "$made" docs/PLANTED.md
elif ! cmp -s "$made" docs/PLANTED.md; then
    echo "planted: docs/PLANTED.md is not what docs/planted gives: run docs/planted.sh --write"
    bad=1
fi
exit "$bad"
