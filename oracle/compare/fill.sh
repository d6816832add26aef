#!/usr/bin/env bash
# fill.sh N SEED: fillings of N random jobs in random orders, the proved `fill` (the program
# filling_test, built by `tools/build.sh filling_test`) beside the lifted `Planner::fill`: positions, right,
# unplaced area, look counts, refusals and every room. TEST=path names another program. The last line
# is 'N jobs, D mismatches'; exits 1 if D is not 0. Jobs that differ stay in build/compare/fill.
# fill.sh --calls N SEED: N random scripts of next copies, withdrawals and stacks in the same way, beside the
# oracle's planner with rooms, which is compared with the plain planner and at every look with the
# lifted one; 'N scripts, D mismatches'; scripts that differ stay in build/compare/calls.
# fill.sh --alone N SEED: the same scripts by the oracle alone.
set -u
. "$(dirname "${BASH_SOURCE[0]}")/../needs.sh"
case ${1:-} in
--alone)
    [ $# = 3 ] || usage
    compare calls - "$2" "$3"
    ;;
--calls)
    [ $# = 3 ] || usage
    program filling_test
    compare calls "$test" "$2" "$3"
    ;;
esac
[ $# = 2 ] || usage
program filling_test
compare fill "$test" "$1" "$2"
