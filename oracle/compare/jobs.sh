#!/usr/bin/env bash
# jobs.sh N SEED: generates N jobs and compares on each the answer of the proved reader (the program
# job_test, built by `tools/build.sh job_test`) with that of the oracle's reader; TEST=path names another
# program. The last line is 'N jobs, D mismatches'; exits 1 if D is not 0.
set -u
. "$(dirname "${BASH_SOURCE[0]}")/../needs.sh"
[ $# = 2 ] || usage
program job_test
compare jobs "$test" "$1" "$2"
