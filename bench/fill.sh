#!/usr/bin/env bash
# fill.sh [JOBS [SEED [RUNS]]]: times whole fillings beside the lifted `fill` on large jobs (22 of seed 1,
# 10 runs each unless said; four of them have combs). Needs oracle/build.sh and
# `tools/build.sh plan_exports` to have run. FRAME='CORNER AXIS' takes jobs of
# version 2 that are the same in that frame.
set -eu
here=$(cd "$(dirname "${BASH_SOURCE[0]}")" && pwd)
mkdir -p "$here/build"
python3 "$here/../oracle/gen.py" --large "$here/build/large" "${1:-22}" "${2:-1}" ${FRAME:-}
rustc -O --edition 2021 -o "$here/build/fill" "$here/fill.rs" -L "$here/../target/staticlib" -l static=plan_exports
exec "$here/build/fill" "$here/build/large" "${3:-10}"
