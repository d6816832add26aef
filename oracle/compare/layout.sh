#!/usr/bin/env bash
# layout.sh N SEED: N random lists of placed panels, the proved `judge_layout` (the program layout_test, built by
# `tools/build.sh layout_test`) beside the oracle's judge, which is compared with the lifted lines: number, line and
# zeros in every room. TEST=path names another program. The line before the last counts the lists by
# their answers; the last is 'N lists, D mismatches'; exits 1 if D is not 0. Lists that differ stay in
# build/compare/layout.
# layout.sh --alone N SEED: the same lists by the oracle alone.
set -u
. "$(dirname "${BASH_SOURCE[0]}")/../needs.sh"
if [ "${1:-}" = --alone ]; then
    [ $# = 3 ] || usage
    compare layout - "$2" "$3"
fi
[ $# = 2 ] || usage
program layout_test
compare layout "$test" "$1" "$2"
