#!/usr/bin/env bash
# Builds the command-line tool, runs the example of docs/gaffreel.md again and compares what it prints with the page, and drills the
# samples and fresh volumes. The tool's other tests are run with those of the other Rust crates.
set -euo pipefail
cd "$(dirname "$0")/.."

. tests/common/archive.sh
archive

# Set, it would test another library.
unset GAFFREEL_STATICLIB_DIR

(cd rust && cargo build --quiet --release --offline -p gaffreel-tool)
PATH=$PWD/target/rust/release:$PATH

work=$(mktemp -d)
trap 'rm -rf "$work"' EXIT

bash docs/examples/cut_and_recovery.sh >"$work/printed"
# The page's only console block.
awk '/^```$/ { inside = 0 } inside { print } /^```console$/ { inside = 1 }' docs/gaffreel.md >"$work/page"
if ! diff "$work/page" "$work/printed"; then
    echo "docs/gaffreel.md differs from what docs/examples/cut_and_recovery.sh prints"
    exit 1
fi
echo "docs/gaffreel.md: the example prints what the page says"

for image in samples/*.img; do
    key=()
    [[ $image != samples/keyed* ]] || key=(--key-file samples/keyed.key)
    gaffreel drill "$image" "${key[@]}" >"$work/drill" || {
        cat "$work/drill"
        exit 1
    }
    echo "$image: $(tail -n 1 "$work/drill")"
done

gaffreel format "$work/image" --tag-size 16 --run 8 --sections 3 --sectors 24 --reserved 1
gaffreel drill "$work/image" --reserved 1 --batches 5 --writes 6

# Three tags of 30 bytes lie across two sectors: those of 17, 34 and 51. None of 32 bytes does, and the same history has fewer stores.
for tag_size in 30 32; do
    gaffreel format "$work/crossing-$tag_size" --tag-size "$tag_size" --run 64 --sections 2 --sectors 60
    gaffreel drill "$work/crossing-$tag_size" --batches 5 --writes 24 --recovery-cuts 40 | tee "$work/drill-$tag_size"
done
stores() {
    awk '$1 == "stores" { print $2 }' "$work/drill-$1"
}
if (($(stores 30) <= $(stores 32))); then
    echo "the drill wrote no tag that lies across two sectors"
    exit 1
fi
