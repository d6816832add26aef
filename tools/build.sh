#!/usr/bin/env bash
# build.sh NAME..: proves and builds programs, to target/bin/NAME, and static libraries, to
# target/staticlib/libNAME.a: those are made of the crate NAME_c, which exports the library NAME to C.
set -eu
cd "$(dirname "${BASH_SOURCE[0]}")/.."
[ $# != 0 ] || { sed -n '2,/^[^#]/s/^# //p' tools/build.sh >&2; exit 2; }
mkdir -p target/bin target/staticlib
for name; do
    if [ -f "crates/$name/src/main.rt" ]; then
        (cd "crates/$name" && rt run </dev/null >/dev/null) # which runs it too, on no input
        cp -f "crates/$name/out/$name" "target/bin/$name"
        echo "built target/bin/$name"
    else
        (cd "crates/${name}_c" && rt lib >&2)
        cp -f "crates/${name}_c/out/lib${name}_c.a" "target/staticlib/lib$name.a"
        echo "built target/staticlib/lib$name.a"
    fi
done
