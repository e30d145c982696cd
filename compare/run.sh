#!/bin/sh
# Compares the proved programs with the comparison on COUNT tapes made from SEED.
#
#     compare/run.sh [SEED [COUNT]]
#
# It stops at the first difference, or where a program fails or hangs, and leaves that tape in
# compare/different.tape.
set -eu
seed=${1:-1}
count=${2:-2000}
here=$(cd "$(dirname "$0")" && pwd)
proved=$here/../crates
for program in runshelf runroll; do
    if [ ! -x "$proved/$program/out/$program" ]; then
        echo "crates/$program/out/$program is missing; build it in crates/$program by: rt run < stdin" >&2
        exit 1
    fi
done
(cd "$here" && cargo build --release --quiet --offline -j1)
exec python3 "$here/check.py" "$seed" "$count" "$proved" "$here/target/release/compare"
