#!/usr/bin/env bash
# layout.sh [JOBS [SEED [RUNS]]]: times `judge_layout` on the plans of large jobs, in filling order, beside the filling that
# makes them (16 jobs of seed 1, 10 runs each unless said). Needs oracle/build.sh and `tools/build.sh plan_exports` to have run.
# FRAME='CORNER AXIS' takes jobs of version 2 that are the same in that frame.
set -eu
here=$(cd "$(dirname "${BASH_SOURCE[0]}")" && pwd)
mkdir -p "$here/build"
python3 "$here/../oracle/gen.py" --large "$here/build/large" "${1:-16}" "${2:-1}" ${FRAME:-}
rustc -O --edition 2021 -o "$here/build/layout" "$here/layout.rs" -L "$here/../target/staticlib" -l static=plan_exports
exec "$here/build/layout" "$here/build/large" "${3:-10}"
