#!/usr/bin/env bash
# R113: holds the stack that the compression of a block takes in the archive, read from its machine code, against a limit that leaves room for one ring.
set -euo pipefail
cd "$(dirname "$0")/.."

. tests/common/archive.sh
archive

function=compression::compress
# Below the 216 that the ring with a copy of sixteen constants took (DECISIONS 74).
limit=208
# What a function may use below the stack pointer without taking it (the red zone), counted whole.
red_zone=128

code=$(objdump --disassemble="$function" --no-show-raw-insn target/staticlib/libgaffreel.a | sed -n "/<$function>:\$/,\$p")
instructions() {
    grep -cE "$1" <<<"$code" || true
}

if [ "$(instructions "<$function>:\$")" != 1 ]; then
    echo "$function is not one function of the archive"
    exit 1
fi
# Only where it calls nothing, and moves the stack pointer by push, pop and constants alone, is what is counted here all that it takes.
moved=$(instructions '\s(sub|add) +\$0x[0-9a-f]{1,7},%rsp$')
if [ "$(instructions '\s(call|enter|leave)|,%rsp$')" != "$moved" ] || [ "$(instructions '\sret$')" = 0 ]; then
    echo "$function calls another function, or takes its stack in a way that is not counted here"
    exit 1
fi

taken=$((8 * $(instructions '\spush ') + red_zone))
for bytes in $(sed -nE 's/.*\ssub +\$(0x[0-9a-f]+),%rsp$/\1/p' <<<"$code"); do
    taken=$((taken + bytes))
done
echo "$function takes $taken bytes of stack below its return address, of at most $limit"
[ "$taken" -le "$limit" ]
