#!/usr/bin/env bash
# panel.sh [JOB..]: links panel.c with the proved code (include/panel.h) and compares what it prints with
# what `plan` prints, on the example jobs or the named ones. Needs `tools/build.sh plan_exports` and
# `tools/build.sh plan` to have run, and a C compiler. The last line is 'N jobs, D differ'.
set -eu
here=$(cd "$(dirname "${BASH_SOURCE[0]}")" && pwd)
root=$here/../..
mkdir -p "$here/build"
"${CC:-cc}" -std=c11 -O2 -Wall -Wextra -I "$root/include" -o "$here/build/panel" "$here/panel.c" \
    "$root/target/staticlib/libplan_exports.a"
[ $# != 0 ] || set -- "$root"/examples/*.job
differ=0
for job; do
    if cmp -s <("$here/build/panel" <"$job") <("$root/target/bin/plan" <"$job"); then
        echo "same  ${job##*/}"
    else
        echo "other ${job##*/}"
        differ=$((differ + 1))
    fi
done
echo "$# jobs, $differ differ"
[ "$differ" = 0 ]
