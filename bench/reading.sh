#!/bin/sh
# Instructions of reading, counted by callgrind: a field of JSON objects of 100, 10,000 and 100,000 String fields, in the order
# of the members and in none, each read by its schema, and a response of 8 headers and 100 such fields, read and then written by
# `write_response`. Each is done N times and 2N times; the difference of the two runs, divided by what was done between them, is
# what one takes, so that start-up and the making of the schema drop out.
# `sh bench/reading.sh [N]`, N is 100 if left out; the larger objects are read fewer times.
here=$(cd "$(dirname "$0")/.." && pwd)
program=$here/crates/bench
times=${1:-100}
work=$(mktemp -d)
trap 'rm -rf "$work"' EXIT
(cd "$program" && rt run -- response 1) >&2 </dev/null || exit 70

# count NAME WORD..: a run of the program with these words
count() {
    name=$1
    shift
    valgrind --tool=callgrind --callgrind-out-file="$work/$name" "$program/out/bench" "$@" 2>"$work/log" || {
        cat "$work/log" >&2
        exit 70
    }
    callgrind_annotate --threshold=100 "$work/$name" >"$work/$name.lines" 2>"$work/log" || exit 70
}

# objects WORD FIELDS TIMES
objects() {
    count few "$1" "$2" "$3"
    count many "$1" "$2" $((2 * $3))
    python3 "$here/bench/difference.py" "$1 of $2 fields" $(($2 * $3)) "$work/few.lines" "$work/many.lines" field
}

for word in object scrambled; do
    objects $word 100 "$times"
    objects $word 10000 $(((times + 24) / 25))
    objects $word 100000 1
done
count few response "$times"
count many response $((2 * times))
python3 "$here/bench/difference.py" response "$times" "$work/few.lines" "$work/many.lines" response
count few answer "$times"
count many answer $((2 * times))
python3 "$here/bench/difference.py" answer "$times" "$work/few.lines" "$work/many.lines" response
