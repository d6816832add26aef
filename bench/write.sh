#!/usr/bin/env bash
# write.sh: times writing jobs from their tables, beside reading them into tables and beside the oracle's reader. Needs
# `tools/build.sh job_exports` to have run.
set -eu
here=$(cd "$(dirname "${BASH_SOURCE[0]}")" && pwd)
mkdir -p "$here/build"
rustc -O --edition 2021 -o "$here/build/write" "$here/write.rs" -L "$here/../target/staticlib" -l static=job_exports
exec "$here/build/write" "$@"
