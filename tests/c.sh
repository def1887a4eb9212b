#!/usr/bin/env bash
# Tests the C interface from C and from C++, through include/gaffreel.h alone, the header's own examples included, and that
# the archive needs from outside what the header says.
set -euo pipefail
cd "$(dirname "$0")/.."

. tests/common/archive.sh
archive

library=target/staticlib/libgaffreel.a
work=$(mktemp -d)
trap 'rm -rf "$work"' EXIT
warnings=(-Wall -Wextra -Werror -pedantic -O2)

needed=$(nm --undefined-only --format=just-symbols "$library" | grep -v -e ':$' -e '^$' | sort -u | tr '\n' ' ')
if [ "$needed" != "memcpy memset " ]; then
    echo "include/gaffreel.h says that the archive needs memcpy and memset; it needs: $needed"
    exit 1
fi
if nm "$library" | grep -i ' [bcd] '; then
    echo "include/gaffreel.h says that the archive has no writable data; it has the above"
    exit 1
fi

# The examples in the header's opening comment: each is the indented text from its #include on.
awk -v work="$work" '
    /^ \*\/$/ { exit }
    /^ \*     #include "gaffreel.h"$/ { example = work "/example-" ++examples ".c" }
    /^ \* [^ ]/ { example = "" }
    example { sub(/^ \*(     )?/, ""); print > example }
' include/gaffreel.h
examples=("$work"/example-*.c)
if [ "${#examples[@]}" != 4 ]; then
    echo "include/gaffreel.h has four examples in its opening comment; found: ${examples[*]}"
    exit 1
fi

for source in "${examples[@]}" tests/c/*.c; do
    name=$(basename "$source" .c)
    gcc -std=c99 "${warnings[@]}" -Iinclude "$source" "$library" -o "$work/$name-c"
    g++ -std=c++11 "${warnings[@]}" -Iinclude -x c++ "$source" -x none "$library" -o "$work/$name-cpp"
    for program in "$name-c" "$name-cpp"; do
        "$work/$program" || { echo "$program failed"; exit 1; }
    done
done
echo "gaffreel.h: its ${#examples[@]} examples passed"
