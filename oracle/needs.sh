# Sourced by run.sh and the scripts of compare/: sets `here` to this folder and `oracle` to the oracle, and builds it
# where it is older than its sources. `program NAME` sets `test` to the program, or TEST's, or exits; `compare NAME ..`
# ends with a module of compare/; `usage` prints the comment at the script's top and exits.
here=$(cd "$(dirname "${BASH_SOURCE[0]}")" && pwd)
oracle=$here/build/oracle
if [ ! -x "$oracle" ] || [ -n "$(find "$here/rust" "$here/lift" -newer "$oracle")" ]; then
    "$here/build.sh" >&2 || exit 1
fi
program() {
    test=$(realpath -m "${TEST:-$here/../target/bin/$1}")
    if [ ! -x "$test" ]; then
        echo "no program $test: run tools/build.sh $1" >&2
        exit 1
    fi
}
compare() {
    local name=$1
    shift
    cd "$here" || exit 1
    exec python3 -m "compare.$name" "$@"
}
usage() {
    sed -n '2,/^[^#]/s/^# //p' "$0" >&2
    exit 2
}
