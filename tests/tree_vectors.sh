#!/usr/bin/env bash
# Has veritysetup make each tree of the program tree_vectors again, and compares root digests and trees with the file that the
# program is held to. veritysetup works on plain files here. Over one block its root digest is also held to that of the salt and the block, by sha256sum.
set -euo pipefail
cd "$(dirname "$0")/.."
source tests/common/need.sh

file=crates/tree_vectors/stdout

need veritysetup cryptsetup-bin
need python3 python3

work=$(mktemp -d)
trap 'rm -rf "$work"' EXIT

# COUNT bytes of the program's patterns: byte i is START + i * X + (i div 4096) * Y, modulo 256.
pattern() {
    python3 -c '
import sys
count, start, x, y = map(int, sys.argv[1:])
sys.stdout.buffer.write(bytes((start + i * x + i // 4096 * y) % 256 for i in range(count)))' "$@"
}

expected() {
    local count length salt root tree
    pattern $((300 * 4096)) 0 7 13 >"$work/image"
    for count in 1 2 127 128 129 300; do
        head -c $((count * 4096)) "$work/image" >"$work/data"
        for length in 0 8 32; do
            pattern "$length" 5 31 0 >"$work/salt"
            salt=$(od -An -v -tx1 "$work/salt" | tr -d ' \n')
            rm -f "$work/tree"
            root=$(veritysetup format --no-superblock --hash=sha256 --data-block-size=4096 --hash-block-size=4096 \
                --salt="${salt:--}" "$work/data" "$work/tree" | sed -n 's/^Root hash:[[:space:]]*//p')
            tree=$(sha256sum <"$work/tree")
            if [ "$count" = 1 ]; then
                cat "$work/salt" "$work/data" | sha256sum | grep -q "^$root " || echo "root digest $root is not that of salt and block"
            fi
            echo "count $count salt $length root $root tree ${tree%% *} accepted $count"
        done
    done
}

if [ ! -f "$file" ]; then
    echo "$file is missing"
    exit 1
fi
if ! expected | diff <(grep '^count .* accepted ' "$file") -; then
    echo "$file differs from what veritysetup makes"
    exit 1
fi
echo "$file: all 18 trees and root digests agree with veritysetup's"
