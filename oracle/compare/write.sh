#!/usr/bin/env bash
# write.sh N SEED: N random jobs, two in three as tables, as they are, edited and damaged, the others as bytes that are read into
# tables and written again, in output rooms of drawn lengths: the proved `write_job` and `read_tables` (the program
# write_test, built by `tools/build.sh write_test`) beside both writers of the oracle, in Python and in Rust. Compared are number,
# bytes written and every byte of the room, and of tables every slot. TEST=path names another program. The line before
# the last counts the jobs by their answers; the last is 'N jobs, D mismatches'; exits 1 if D is not 0. Jobs that differ
# stay in build/compare/write.
# write.sh --alone N SEED: the same jobs by both writers of the oracle alone.
set -u
. "$(dirname "${BASH_SOURCE[0]}")/../needs.sh"
if [ "${1:-}" = --alone ]; then
    [ $# = 3 ] || usage
    compare write - "$2" "$3"
fi
[ $# = 2 ] || usage
program write_test
compare write "$test" "$1" "$2"
