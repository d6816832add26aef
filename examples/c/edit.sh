#!/usr/bin/env bash
# edit.sh: links edit.c with the proved code (include/panel.h); each accepted example must come back byte for byte where its first
# kind's quantity is set to what it is, and case 4 with another quantity must be planned with it. Needs `tools/build.sh job_exports`,
# `tools/build.sh plan`, python3 and a C compiler. The last line is 'N jobs, D differ'.
set -eu
here=$(cd "$(dirname "${BASH_SOURCE[0]}")" && pwd)
root=$here/../..
mkdir -p "$here/build"
"${CC:-cc}" -std=c11 -O2 -Wall -Wextra -I "$root/include" -o "$here/build/edit" "$here/edit.c" \
    "$root/target/staticlib/libjob_exports.a"
quantity() { # of kind 0 in a job
    python3 - "$1" "$root/oracle" <<'PYTHON'
import sys
sys.path.insert(0, sys.argv[2])
from jobs.writer import tables_of
tables = tables_of(open(sys.argv[1], "rb").read())
print(tables if isinstance(tables, int) else f"of {tables.rows[0]}")
PYTHON
}
jobs=0 differ=0
for job in "$root"/examples/*.job; do
    told=$(quantity "$job")
    case $told in
    of*) "$here/build/edit" 0 "${told#of }" <"$job" | cmp -s - "$job" ;;
    *) [ "$("$here/build/edit" 0 1 <"$job" 2>&1)" = "no $told" ] ;;
    esac && echo "same  ${job##*/}" || { echo "other ${job##*/}"; differ=$((differ + 1)); }
    jobs=$((jobs + 1))
done
[ "$("$here/build/edit" 0 3 <"$root/examples/case4.job" | "$root/target/bin/plan" | head -1)" = "plan 3 0 0" ] || differ=$((differ + 1))
echo "$jobs jobs, $differ differ"
[ "$differ" = 0 ]
