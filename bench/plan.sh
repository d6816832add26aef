#!/usr/bin/env bash
# plan.sh [JOBS [SEED [RUNS]]]: times the program `plan` beside the lifted Rust on large jobs (22 of seed 1,
# 10 runs each, unless said; four of them have combs), a process for each run, the two in turn.
# Prints the least time of each, their ratio, and the peak memory of both. Needs oracle/build.sh and
# `tools/build.sh plan` to have run, and GNU time; PLAN=path names another program. FRAME='CORNER AXIS' takes
# jobs of version 2 that are the same in that frame.
set -eu
here=$(cd "$(dirname "${BASH_SOURCE[0]}")" && pwd)
mkdir -p "$here/build"
python3 "$here/../oracle/gen.py" --large "$here/build/large" "${1:-22}" "${2:-1}" ${FRAME:-}
exec python3 "$here/plan.py" "${PLAN:-$here/../target/bin/plan}" "$here/build/large" "${3:-10}"
