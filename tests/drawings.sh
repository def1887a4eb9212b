#!/usr/bin/env bash
# Draws the drawings of docs/drawings again, and compares them with those that are kept. The script that draws holds its formulas
# to the examples of R91, and every label to its room.
set -euo pipefail
cd "$(dirname "$0")/.."
source tests/common/need.sh

folder=docs/drawings

need python3 python3

work=$(mktemp -d)
trap 'rm -rf "$work"' EXIT

python3 "$folder/draw.py" "$work"
if ! diff -r --exclude='*.py' "$folder" "$work"; then
    echo "$folder differs from what $folder/draw.py draws"
    exit 1
fi
python3 -c 'import sys, xml.dom.minidom
for file in sys.argv[1:]: xml.dom.minidom.parse(file)' "$work"/*.svg
echo "$(ls "$work" | wc -l) drawings are as draw.py draws them, and well-formed"
