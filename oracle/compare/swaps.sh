#!/usr/bin/env bash
# swaps.sh N SEED: generates N jobs and compares the final order, the improvements and the state of the
# draws that the proved swap search ends with (the program swaps_test, built by `tools/build.sh swaps_test`)
# with those of the lifted lines of `nest`; TEST=path names another program. The last line is
# 'N jobs, D mismatches'; exits 1 if D is not 0.
set -u
. "$(dirname "${BASH_SOURCE[0]}")/../needs.sh"
[ $# = 2 ] || usage
program swaps_test
compare swaps "$test" "$1" "$2"
