#!/usr/bin/env bash
# draws.sh N SEED: the proved next_random against the lifted one on N states. The last line is
# 'N states, D mismatches'; exits 1 if D is not 0.
set -eu
. "$(dirname "${BASH_SOURCE[0]}")/../needs.sh"
[ $# = 2 ] || usage
cd "$here/.."
tools/build.sh bench_exports >oracle/build/staticlib.log 2>&1 || { tail -5 oracle/build/staticlib.log >&2; exit 1; }
rustc -O --edition 2021 -o oracle/build/draws oracle/rust/draws.rs -L native=target/staticlib -l static=bench_exports
exec oracle/build/draws "$1" "$2"
