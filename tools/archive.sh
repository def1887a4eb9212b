#!/usr/bin/env bash
# Builds what a firmware links: target/staticlib/libgaffreel.a.
set -euo pipefail
cd "$(dirname "$0")/.."

(cd crates/gaffreel && rt lib) >&2
mkdir -p target/staticlib
cp crates/gaffreel/out/libgaffreel.a target/staticlib/
