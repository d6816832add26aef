#!/usr/bin/env bash
# build.sh [--show] [NESTING_RS]: lifts the Rust planner and compiles the oracle.
# --show lists, after the build, every lifted piece tested against NESTING_RS.
set -eu
here=$(cd "$(dirname "${BASH_SOURCE[0]}")" && pwd)
sum=41009bd624699127c930e2f87e02344b1d8b74c4c2786a1299c677cd0389a841
show=no
if [ "${1:-}" = --show ]; then
    show=yes
    shift
fi
source=${1:-$here/../../shared/docs/src--src--nesting.rs.txt}
need="needed: src/nesting.rs of the repository stevecad/camlib at commit b3dd2791ea (MIT licence), sha256 $sum"
if [ ! -f "$source" ]; then
    echo "build.sh: no file $source" >&2
    echo "$need" >&2
    exit 1
fi
if [ "$(sha256sum <"$source" | cut -d' ' -f1)" != "$sum" ]; then
    echo "build.sh: $source is another text" >&2
    echo "$need" >&2
    exit 1
fi
mkdir -p "$here/build"
python3 "$here/lift/lift.py" "$source" "$here/build/lifted.rs"
rustc -O --edition 2021 -o "$here/build/oracle" "$here/rust/main.rs"
if [ $show = yes ]; then
    python3 "$here/lift/lift.py" --show "$source" "$here/build/lifted.rs"
fi
echo "built $here/build/oracle"
