#!/bin/sh
# Counts the instructions that the proved programs and the comparison take for three tapes of full length, and for
# an empty one, which shows what it takes to start. The last column is the ratio of what they take beyond that.
#
#     compare/speed.sh
set -eu
here=$(cd "$(dirname "$0")" && pwd)
proved=$here/../crates
comparison=$here/target/release/compare
for program in runshelf runroll; do
    if [ ! -x "$proved/$program/out/$program" ]; then
        echo "crates/$program/out/$program is missing; build it in crates/$program by: rt run < stdin" >&2
        exit 1
    fi
done
(cd "$here" && cargo build --release --quiet --offline -j1)
folder=$(mktemp -d)
trap 'rm -rf "$folder"' EXIT

# How many instructions a command takes for a tape.
instructions() {
    tape=$1
    shift
    valgrind --tool=callgrind --callgrind-out-file=/dev/null "$@" < "$tape" 2> "$folder/notes" > "$folder/listing"
    sed -n 's/.*Collected : \([0-9]*\).*/\1/p' "$folder/notes"
}

: > "$folder/empty.tape"
for name in uncontended contended reading; do
    python3 "$here/tapes.py" --speed "$name" > "$folder/$name.tape"
done
printf '%-12s %-6s %14s %14s %8s %14s\n' tape store proved comparison ratio 'without start'
for store in shelf roll; do
    for name in empty uncontended contended reading; do
        ours=$(instructions "$folder/$name.tape" "$proved/run$store/out/run$store")
        mv "$folder/listing" "$folder/ours"
        theirs=$(instructions "$folder/$name.tape" "$comparison" "$store")
        if ! cmp -s "$folder/ours" "$folder/listing"; then
            echo "the listings of the tape $name over the $store differ" >&2
            exit 1
        fi
        if [ "$name" = empty ]; then
            our_start=$ours their_start=$theirs
        fi
        awk -v "name=$name" -v "store=$store" -v "ours=$ours" -v "theirs=$theirs" \
            -v "our_start=$our_start" -v "their_start=$their_start" 'BEGIN {
                printf "%-12s %-6s %14d %14d %8.2f", name, store, ours, theirs, ours / theirs
                if (name != "empty") printf " %14.2f", (ours - our_start) / (theirs - their_start)
                print ""
            }'
    done
done
