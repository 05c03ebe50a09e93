#!/bin/sh
# Checks docs/rules.txt, the table from each rule to its definition and to what carries it, and makes docs/RULES.md of it.
# Usage: docs/rules.sh [--write]. It fails where a definition or a function is no longer there, or where RULES.md is not what the
# table gives; with --write it writes RULES.md.
set -u
cd "$(dirname "$0")/.." || exit 1
made=$(mktemp)
trap 'rm -f "$made"' EXIT
bad=0

# Whether a definition crate:module.word stands in the specs of its crate.
defined() {
    file=crates/${1%%:*}/specs/$(echo "${1#*:}" | cut -d. -f1).antt
    word=$(echo "${1#*:}" | cut -d. -f2)
    grep -qE "^ *((abbrev )?pub )?(abbrev |record |inductive |type )?(pub )?(record )?$word( |\$)" "$file" 2>/dev/null
}

# Whether a function crate:name is public in the sources of its crate, or a test there.
coded() {
    grep -qE "fn ${1#*:}(<|\()" "crates/${1%%:*}"/src/*.rt 2>/dev/null
}

{
    echo "# Rules and what carries them"
    echo
    echo "Made of docs/rules.txt by docs/rules.sh, which checks each name."
    echo
    echo "| Section | Rule | Definition | Carried by |"
    echo "|---|---|---|---|"
} >"$made"
while IFS='|' read -r section rule definition carrier; do
    case $section in '#'*) continue ;; esac
    if ! defined "$definition"; then
        echo "rules: no definition $definition"
        bad=1
    fi
    for name in ${carrier#* }; do
        [ "$carrier" = unbuilt ] && break
        if ! coded "$name"; then
            echo "rules: no function $name"
            bad=1
        fi
    done
    echo "| $section | $rule | \`$definition\` | $carrier |" >>"$made"
done <docs/rules.txt
for kind in proved tested unbuilt; do
    count=$(grep -cE "\\| $kind( |\$)" "$made")
    echo "rules: $kind $count"
done
adapters=$(cat crates/outer_ends/src/files.rt crates/outer_ends/src/streams.rt | wc -l)
echo "rules: trusted edge: adapters $adapters lines, main $(wc -l <crates/jsonapid/src/main.rt) lines, and the definitions in specs/"
if [ "${1:-}" = --write ]; then
    cp "$made" docs/RULES.md
elif ! cmp -s "$made" docs/RULES.md; then
    echo "rules: docs/RULES.md is not what docs/rules.txt gives: run docs/rules.sh --write"
    bad=1
fi
exit "$bad"
