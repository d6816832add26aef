#!/usr/bin/env bash
# run.sh [--plan PROGRAM] N SEED: generates N jobs, good and damaged, and compares on each the
# lifted planner, the planner with rooms and the plain planner, in the whole plan and in a drawn
# order; the oracle's reader with that of bits.py, on these jobs and on every job of 0 to 2 bytes;
# and the program `plan` byte for byte, where there is one (target/bin/plan, or PROGRAM).
# SHORT=yes runs `plan` on the short jobs too. Where N is 5,000 or more every number that `plan`
# can print must occur.
set -u
. "$(dirname "${BASH_SOURCE[0]}")/needs.sh"
plan=$here/../target/bin/plan
[ -x "$plan" ] || plan=
if [ "${1:-}" = --plan ]; then
    plan=$2
    shift 2
    if [ ! -x "$plan" ]; then
        echo "no program $plan" >&2
        exit 2
    fi
fi
[ $# = 2 ] || usage
n=$1 seed=$2
build=$here/build
differ=0

# Runs a command that ends with '.., D disagreements' and adds D.
count() {
    local last
    text=$("$@")
    last=$(tail -n 1 <<<"$text")
    if [[ $last =~ ,\ ([0-9]+)\ disagreements$ ]]; then
        differ=$((differ + BASH_REMATCH[1]))
    else
        differ=$((differ + 1))
    fi
    printf '%s\n\n' "$text"
}

# Every number that `plan` can print must be among the answers.
every_number() {
    local number
    for number in 1 2 3 4 5 6 7 8 11 20 21 22; do
        if ! grep -q "^no $number: " <<<"$text"; then
            echo "no job was refused with $number"
            differ=$((differ + 1))
        fi
    done
}

python3 "$here/gen.py" "$build/jobs" "$n" "$seed" || exit 1
python3 "$here/gen.py" --short "$build/short" || exit 1

echo "whole plans${plan:+, and $plan}"
count "$oracle" --batch "$build/jobs" --out "$build/answers" ${plan:+--plan "$plan"}
[ "$n" -lt 5000 ] || every_number
echo "fillings in a drawn order"
count "$oracle" --batch "$build/jobs" --shuffle "$seed"
echo "reader on the same jobs"
"$oracle" --batch "$build/jobs" --answer --out "$build/readings" >/dev/null
count python3 "$here/gen.py" --check "$build/jobs" "$build/readings"
echo "reader on every job of 0 to 2 bytes"
count "$oracle" --batch "$build/short" --answer --out "$build/readings"
count python3 "$here/gen.py" --check "$build/short" "$build/readings"
if [ -n "$plan" ] && [ "${SHORT:-}" = yes ]; then
    echo "$plan on every job of 0 to 2 bytes"
    count "$oracle" --batch "$build/short" --plan "$plan"
fi
echo "$n jobs, $differ disagreements"
[ $differ = 0 ]
