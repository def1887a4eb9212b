#!/usr/bin/env bash
# The bench program on the sample images, and on images that it must refuse; `gaffreel check` must print the same. The samples are made anew, and must be
# those that are kept.
set -euo pipefail
cd "$(dirname "$0")/.."

. tests/common/archive.sh

(cd crates/bench && rt run <stdin) >/dev/null
archive

# Set, it would test another library.
unset GAFFREEL_STATICLIB_DIR

(cd rust && cargo build --quiet --release --offline -p gaffreel-tool)
PATH=$PWD/crates/bench/out:$PWD/target/rust/release:$PATH

work=$(mktemp -d)
trap 'rm -rf "$work"' EXIT

count=0

# What both programs print for an image: prints IMAGE EXPECTED.
prints() {
    bench <"$1" >"$work/bench"
    gaffreel check "$1" >"$work/check" 2>/dev/null || true
    for program in bench check; do
        diff "$2" "$work/$program" || {
            echo "$program on $1 differs from $2"
            exit 1
        }
    done
    count=$((count + 1))
}

# A copy of a sample with bytes changed: changed NAME SAMPLE OFFSET BYTES, the bytes as printf has them.
changed() {
    cp "samples/$2.img" "$work/$1.img"
    printf "$4" | dd of="$work/$1.img" bs=1 seek="$3" conv=notrunc status=none
}

# The same, which is refused: refused NUMBER NAME SAMPLE OFFSET BYTES.
refused() {
    changed "$2" "$3" "$4" "$5"
    echo "refused $1" >"$work/$2.txt"
    prints "$work/$2.img" "$work/$2.txt"
}

# The fresh sample with zeros behind it, so many bytes in all.
lengthened() {
    cat samples/fresh.img
    head -c $(($1 - 61440)) /dev/zero
}

mkdir "$work/samples"
bash samples/make.sh "$work/samples"
for image in samples/*.img; do
    cmp "$image" "$work/samples/$(basename "$image")"
    prints "$image" "${image%.img}.txt"
done

# With their key, those that have one are as good as those without.
for pair in keyed:replay keyed_fresh:fresh; do
    gaffreel check "samples/${pair%:*}.img" --key-file samples/keyed.key | cmp - "samples/${pair#*:}.txt"
done

# The image on which the gate's own run of the bench is made is one of them.
cmp crates/bench/stdin samples/two_bad_sectors.img
cmp crates/bench/stdout samples/two_bad_sectors.txt

# The superblock: a fixed byte, the version, log2 N, T, S, P, flags, sectors per block, a byte behind them.
refused 4 magic fresh 0 'I'
refused 4 version fresh 8 '\005'
refused 4 run fresh 9 '\002'
refused 4 tag fresh 10 '\041'
refused 4 no_tag fresh 10 '\000'
refused 4 tag_of_276 fresh 10 '\024\001'
refused 4 sections fresh 12 '\000'
refused 4 provided fresh 16 '\000'
refused 4 flags fresh 24 '\001'
refused 4 block fresh 28 '\001'
refused 4 rest fresh 4095 '\001'
# More sectors provided than the image has room for, and larger sections, those of tags of 24 bytes.
refused 5 layout fresh 16 '\021'
refused 5 larger_sections fresh 10 '\030'
# Commit ids used up, on any journal sector: the last of the section, which the torn attempt had not reached.
refused 10 ids torn $((95 * 512 + 504)) '\377\377\377\377\377\377\377\377'
# In the journal: an entry for a sector that is not provided, and an entry whose tag does not fit.
refused 6 entry replay $((8 * 512)) '\020'
refused 7 entry_tag replay $((8 * 512 + 48 + 16)) 'x'
# The last byte of a tag of 20 bytes, and of 30; what stands behind a tag in its entry is ignored.
refused 7 tag_of_20 tag_20 $((8 * 512 + 16 + 19)) 'x'
refused 7 crossing_tag crossing $((8 * 512 + 48 + 16 + 29)) 'x'
changed behind_tag_of_20 tag_20 $((8 * 512 + 16 + 20)) 'xxxx'
prints "$work/behind_tag_of_20.img" samples/tag_20.txt
changed behind_crossing_tag crossing $((8 * 512 + 48 + 16 + 30)) 'xx'
prints "$work/behind_crossing_tag.img" samples/crossing.txt
# Damage to either part of the tag of sector 17, on a fresh volume: no replay mends it.
for part in lower:$((96 * 512 + 511)) upper:$((97 * 512 + 27)); do
    gaffreel format "$work/${part%:*}.img" --tag-size 30 --run 32 --sectors 24 >"$work/formatted"
    printf x | dd of="$work/${part%:*}.img" bs=1 seek="${part#*:}" conv=notrunc status=none
    printf 'tag 30 run 32 sections 1 provided 24\nreplay 0\nbad-sector 17\nbad 1\n' >"$work/${part%:*}.txt"
    prints "$work/${part%:*}.img" "$work/${part%:*}.txt"
done

# Lengths: empty, not whole sectors, short of a superblock, all zero, short of the layout, 128 sectors, one byte more.
echo 'refused 1' >"$work/1.txt"
echo 'refused 3' >"$work/3.txt"
echo 'refused 5' >"$work/5.txt"
: >"$work/empty.img"
prints "$work/empty.img" "$work/5.txt"
head -c 61439 samples/fresh.img >"$work/part.img"
prints "$work/part.img" "$work/1.txt"
head -c $((7 * 512)) samples/fresh.img >"$work/no_superblock.img"
prints "$work/no_superblock.img" "$work/5.txt"
head -c $((119 * 512)) samples/fresh.img >"$work/short.img"
prints "$work/short.img" "$work/5.txt"
head -c 61440 /dev/zero >"$work/zero.img"
prints "$work/zero.img" "$work/3.txt"
lengthened 65536 >"$work/longest.img"
prints "$work/longest.img" samples/fresh.txt
lengthened 65537 >"$work/too_long.img"
prints "$work/too_long.img" "$work/1.txt"

# 129 sectors: the bench's limit is 128, the tool has none of its own.
lengthened 66048 >"$work/larger.img"
bench <"$work/larger.img" | cmp - "$work/1.txt"
gaffreel check "$work/larger.img" | cmp - samples/fresh.txt

echo "$count images: bench and gaffreel check print what is expected"
