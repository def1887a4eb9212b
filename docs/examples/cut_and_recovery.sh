#!/usr/bin/env bash
# A volume from format to a power cut, its recovery, damage and a drill; and one with a key. Works in a folder of its own; gaffreel must be on
# the PATH. What it prints stands in docs/gaffreel.md.
set -euo pipefail

work=$(mktemp -d)
trap 'rm -rf "$work"' EXIT
cd "$work"

# Shows a command, runs it, and shows its exit status if that is not 0.
show() {
    echo "\$ $1"
    local status=0
    bash -o pipefail -c "$1" 2>&1 || status=$?
    [ "$status" = 0 ] || echo "(exit status $status)"
}

show 'gaffreel format stock.img'
show 'printf "insulin 40" | dd bs=512 conv=sync status=none >old'
show 'printf "insulin 12" | dd bs=512 conv=sync status=none >new'
show 'gaffreel write stock.img 5 --input old'
echo
echo '# The power fails one store before the batch is acknowledged: nothing of it is kept.'
show 'gaffreel write stock.img 5 --input new --cut-after 87'
show 'gaffreel dump stock.img --entries | tail -n 6'
show 'gaffreel read stock.img 5 | tr -d "\0"; echo'
echo
echo '# One store later all of it is kept, though the data is not in its place yet.'
show 'gaffreel write stock.img 5 --input new --cut-after 88'
show 'gaffreel dump stock.img --entries | tail -n 6'
show 'gaffreel check stock.img'
show 'gaffreel recover stock.img'
show 'gaffreel read stock.img 5 | tr -d "\0"; echo'
echo
echo '# A byte of sector 9, the volume'\''s sector 113, is damaged: it is named, and not handed out.'
show 'printf x | dd of=stock.img bs=1 seek=$((113 * 512)) conv=notrunc status=none'
show 'gaffreel check stock.img'
show 'gaffreel read stock.img 9'
echo
echo '# Every cut of a random history, on copies. The damaged sector stays refused until it is written.'
show 'gaffreel drill stock.img'
echo
echo '# A volume whose tags need a key. Without it the batch in the journal is refused.'
show 'printf %s "key of the cabinet" >key'
show 'gaffreel format cabinet.img --key-file key'
show 'gaffreel write cabinet.img 5 --input old --key-file key'
show 'gaffreel check cabinet.img --key-file key'
show 'gaffreel check cabinet.img'
