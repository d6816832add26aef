#!/usr/bin/env bash
# looks.sh N SEED: N looks by the lifted Rust and by the proved functions; the last line is
# 'N looks, D mismatches', and the exit status is not zero if D is not. looks.sh time: speed.
# looks.sh sample N SEED DIR: looks and the lifted Rust's answers, for samples/look.py.
# Needs rustc and the Rattle kit's rt.
set -eu
. "$(dirname "${BASH_SOURCE[0]}")/../needs.sh"
case ${1:-} in time | sample) ;; *) [ $# = 2 ] || usage ;; esac
"$here/../tools/build.sh" bench_exports >&2
pieces() {
    awk -v want="^($1)\$" -f "$here/lift/pieces.awk" "$here/build/lifted.rs"
}
{
    pieces 'type P2|fn bounds|struct Trapezoid|impl Trapezoid|fn trapezoids|struct Index|impl Index'
    cat <<'RUST'
impl Looker {
    fn look(
        &self, shape: &Shape, placed_parts: &Index, (column, columns): (usize, usize),
        (x_low, x_high): (f64, f64), ys: (f64, f64), out: &mut Vec<(f64, f64)>,
    ) -> (f64, f64) {
        let mut intervals = std::mem::take(out);
RUST
    pieces 'lines look'
    cat <<'RUST'
        *out = intervals;
        (x, y)
    }
}
RUST
} >"$here/build/looks_lifted.rs"
rustc -O --edition 2021 -A warnings -o "$here/build/looks" "$here/rust/looks.rs" -L "$here/../target/staticlib" -l static=bench_exports
if [ "${1:-}" = time ]; then exec "$here/build/looks" time; fi
if [ "${1:-}" = sample ]; then exec "$here/build/looks" "$@"; fi
exec "$here/build/looks" compare "$1" "$2"
