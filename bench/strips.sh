#!/usr/bin/env bash
# strips.sh: times the proved trapezoids beside the lifted one. Needs oracle/build.sh and
# `tools/build.sh bench_exports` to have run.
set -eu
here=$(cd "$(dirname "${BASH_SOURCE[0]}")" && pwd)
mkdir -p "$here/build"
# Of the lifted text the pieces that strips need, unchanged.
awk -v want='^(type P2|fn bounds|struct Trapezoid|fn trapezoids)$' -f "$here/../oracle/lift/pieces.awk" \
    "$here/../oracle/build/lifted.rs" >"$here/build/lifted_strips.rs"
rustc -O --edition 2021 -o "$here/build/strips" "$here/strips.rs" -L "$here/../target/staticlib" -l static=bench_exports
exec "$here/build/strips" "$@"
