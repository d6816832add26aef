#!/usr/bin/env bash
# strips.sh N SEED: N generated sets, part and sheet, in all eight frames, by the proved code (the program
# strips_test, built by `tools/build.sh strips_test`) and by the lifted Rust; every bit is compared. TEST=path
# names another program. The last line is 'N sets, D mismatches'; exits 1 if D is not 0.
set -u
. "$(dirname "${BASH_SOURCE[0]}")/../needs.sh"
[ $# = 2 ] || usage
program strips_test
compare strips "$test" "$1" "$2"
