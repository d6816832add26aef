#!/usr/bin/env bash
# jobs.sh: times the proved reader of jobs beside the oracle's. Needs `tools/build.sh bench_exports` to have run.
set -eu
here=$(cd "$(dirname "${BASH_SOURCE[0]}")" && pwd)
mkdir -p "$here/build"
rustc -O --edition 2021 -o "$here/build/jobs" "$here/jobs.rs" -L "$here/../target/staticlib" -l static=bench_exports
exec "$here/build/jobs" "$@"
