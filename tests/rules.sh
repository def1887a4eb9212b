#!/usr/bin/env bash
# Holds docs/RULES.md against the citations of its rules: a definition or statement, in a comment under crates/*/specs, cites each rule, save those of the page's
# last section, which the file named there cites; and every rule that is cited anywhere stands on the page.
set -euo pipefail
cd "$(dirname "$0")/.."

page=docs/RULES.md

work=$(mktemp -d)
trap 'rm -rf "$work"' EXIT

# The rules that standard input names, one to a line. A name is a word of its own.
names() {
    grep -owE 'R[0-9]+' || true
}

# Each rule opens an item of the page; the last section has items of a rule and a file.
sed -nE 's/^- \*\*(R[0-9]+)\*\* .*/\1/p' "$page" | sort >"$work/rules"
sed -nE 's/^- (R[0-9]+): (.+)$/\1 \2/p' "$page" >"$work/elsewhere"
if ! [ -s "$work/rules" ]; then
    echo "no rules in $page"
    exit 1
fi
{
    grep -rhoE --include='*.antt' -e '--.*' crates/*/specs | names
    while read -r rule file; do
        names <"$file" | grep -x "$rule" || true
    done <"$work/elsewhere"
} | sort -u >"$work/cited"

# The page's own references are held too, and are not citations.
grep -rnIowE --exclude-dir=target --exclude-dir=out 'R[0-9]+' README.md crates docs tests include rust | sort >"$work/named"
grep -v "^$page:" "$work/named" >"$work/citations"

uniq -d "$work/rules" | sed 's/$/ is given twice/' >"$work/faults"
comm -23 <(uniq "$work/rules") "$work/cited" | sed 's/$/ is not cited/' >>"$work/faults"
awk -F: 'NR == FNR { known[$1]; next } !($NF in known) { print $1 ":" $2 ": no rule " $NF }' "$work/rules" "$work/named" >>"$work/faults"
if [ -s "$work/faults" ]; then
    sort -V "$work/faults"
    exit 1
fi
echo "$(wc -l <"$work/rules") rules, $(wc -l <"$work/citations") citations"
