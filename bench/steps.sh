#!/usr/bin/env bash
# steps.sh [--stacks] [RUNS]: what a single step costs at 100, 300 and 600 standing strips, by differences of whole runs of
# the program filling_test on scripts (10 runs each unless said; the least counts): a call that a refused job ends
# at once, 31's test (a next copy with the order used up), the mean of the next copies up to there, and a withdrawal
# with the next copy after it. Needs `tools/build.sh filling_test`; TEST=path names another program, and COUNT=1 counts
# instructions (valgrind) instead of microseconds. BACK=0 leaves withdrawals out, for a program without them.
# With --stacks instead: 100, 300, 600 copies and the most that the rooms hold, by that many next copies, by one stack
# (document 02, W5) and as a filling in a given order; runs by turns. What a call costs that is refused at once (6), for
# printing and hashing the state, is taken off.
set -eu
which=
if [ "${1:-}" = --stacks ]; then
    which=stacks
    shift
fi
here=$(cd "$(dirname "${BASH_SOURCE[0]}")" && pwd)
test=$(realpath -m "${TEST:-$here/../target/bin/filling_test}")
cd "$here/../oracle"
exec env PYTHONPATH=. python3 "$here/steps.py" "$test" "${1:-10}" $which
