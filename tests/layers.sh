#!/usr/bin/env bash
# Only the digest rests on compression. A crate above that listed it could compute `sha256`, which is to be used by its promise alone: R8, R99.
set -euo pipefail
cd "$(dirname "$0")/.."

over=$(sed 's/#.*//' crates.txt | awk -F: '(" " $2 " ") ~ / compression / { print $1 }')
if [ "$over" != digest ]; then
    echo "only digest may rest on compression, and these do:" $over
    exit 1
fi
echo "only digest rests on compression"
