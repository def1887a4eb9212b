#!/usr/bin/env bash
# Tests the proved library through its C interface, against the Rust reference (rust/). Benchmarks are not run.
set -euo pipefail
cd "$(dirname "$0")/.."

. tests/common/archive.sh
archive

# Set, these would test another library, a single case or many times the cases.
unset GAFFREEL_STATICLIB_DIR GAFFREEL_TEST_SEED GAFFREEL_TEST_TIMES

log=$(mktemp)
trap 'rm -f "$log"' EXIT
cd rust
if ! cargo test --quiet --release --offline -- --show-output >"$log" 2>&1; then
    cat "$log"
    exit 1
fi
# Each random test prints how many calls it compared with the reference.
awk '/^test result: ok/ { passed += $4 } /^[0-9]+ calls compared$/ { calls += $1 }
    END { print passed " tests passed, " calls " calls compared" }' "$log"
