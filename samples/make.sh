#!/usr/bin/env bash
# Makes the sample images in the folder that is named, with gaffreel, which must be on the PATH. Beside each image here stands what the bench
# program prints for it. Where nothing else is said the layout is document 01's example: T 32, N 16, S 1, P 16; 120 sectors.
#
#   fresh            as format leaves it
#   replay           three sectors written, and a power cut after the 88th store: the batch is in the journal, and not in its place yet
#   torn             a sector written, then again, and a cut after 40 stores of that: the section is torn, and the older data is kept
#   two_bad_sectors  two sectors written; then a byte of sector 3's data and a byte of sector 12's tag damaged, which no replay mends
#   keyed            as replay, with the key in keyed.key; the bench program has no key, and finds a tag in the journal that does not fit
#   keyed_fresh      as format leaves it with that key; without the key, no sector's tag fits
#   tag_20           tags of 20 bytes: T 20, N 8, S 1, P 8; 128 sectors. Three sectors written, and a power cut after the 104th store, the last of the commit
#   crossing         a tag across two sectors, that of sector 17: T 30, N 32, S 1, P 24; 128 sectors. Sectors 16 to 18 written, and a power cut four stores
#                    after the last of the commit: data and tag of sector 16 are in their place, and of sector 17 the data and the first two bytes of the tag
set -euo pipefail
key=$(cd "$(dirname "$0")" && pwd)/keyed.key
cd "$1"

# Sectors of one byte: stock BYTE COUNT.
stock() {
    head -c $(($2 * 512)) /dev/zero | tr '\0' "$1"
}

# Sets a byte of a file: damage FILE OFFSET BYTE.
damage() {
    printf '%s' "$3" | dd of="$1" bs=1 seek="$2" conv=notrunc status=none
}

{
    gaffreel format fresh.img

    cp fresh.img replay.img
    stock a 3 | gaffreel write replay.img 5 --cut-after 88

    cp fresh.img torn.img
    stock a 1 | gaffreel write torn.img 5
    stock b 1 | gaffreel write torn.img 5 --cut-after 40

    cp fresh.img two_bad_sectors.img
    stock a 2 | gaffreel write two_bad_sectors.img 0
    # Sector 3 lies at 96 + 8 + 3; the tag of sector 12 starts at byte 96 × 512 + 12 × 32.
    damage two_bad_sectors.img $((107 * 512 + 100)) x
    damage two_bad_sectors.img $((96 * 512 + 12 * 32 + 31)) x

    gaffreel format keyed_fresh.img --key-file "$key"
    cp keyed_fresh.img keyed.img
    stock a 3 | gaffreel write keyed.img 5 --cut-after 88 --key-file "$key"

    gaffreel format tag_20.img --tag-size 20 --run 8 --sectors 8
    stock a 3 | gaffreel write tag_20.img 2 --cut-after 104

    gaffreel format crossing.img --tag-size 30 --run 32 --sectors 24
    stock a 3 | gaffreel write crossing.img 16 --cut-after $((88 + 4))
} >/dev/null
