#!/usr/bin/env bash
# Measures on a painted stack how much of it each exported call takes, and holds that against the table in include/gaffreel.h,
# and the table against what the card can spare.
set -euo pipefail
cd "$(dirname "$0")/.."

. tests/common/archive.sh
archive

library=target/staticlib/libgaffreel.a
work=$(mktemp -d)
trap 'rm -rf "$work"' EXIT
warnings=(-Wall -Wextra -Werror -pedantic -O2)

# The card's stack is short: the most bytes of it that any call of the volume may take, and the two that make a single step.
volume_limit=4096
step_limit=2560
next_store_limit=2048

# Bound at the start: a symbol that is bound when it is first called takes 2.6 KB of stack for that.
gcc -std=c11 "${warnings[@]}" -Iinclude -Itests/c tests/stack/*.c tests/stack/*.S "$library" -Wl,-z,now -o "$work/stack"
"$work/stack" >"$work/measurement" || {
    cat "$work/measurement"
    exit 1
}
# The table's rows: a call and its bytes.
awk '/^ \*     gaffreel_[a-z0-9_]+ +[0-9,]+$/ { gsub(",", "", $3); print $2, $3 }' include/gaffreel.h >"$work/header"

nm --defined-only --extern-only --format=just-symbols "$library" | grep '^gaffreel_' | sort >"$work/exported"
for list in measurement header; do
    diff "$work/exported" <(cut -d ' ' -f 1 "$work/$list" | sort) || {
        echo "the calls that the archive exports (<) are not those of the $list (>)"
        exit 1
    }
done

awk -v volume="$volume_limit" -v step="$step_limit" -v next_store="$next_store_limit" '
    function limit(call) {
        if (call == "gaffreel_volume_step") return step
        if (call == "gaffreel_volume_next_store") return next_store
        return call ~ /^gaffreel_volume_/ ? volume : header[call]
    }
    NR == FNR { header[$1] = $2; next }
    FNR == 1 { printf "%-28s %8s %8s\n", "stack of a call, in bytes", "measured", "header" }
    {
        fault = $2 > header[$1] ? "  more than the header says" : header[$1] > limit($1) ? "  the limit is " limit($1) : ""
        printf "%-28s %8d %8d%s\n", $1, $2, header[$1], fault
        failed += fault != ""
        calls += $3
    }
    END {
        print calls " calls measured"
        exit (failed > 0)
    }
' "$work/header" "$work/measurement"
