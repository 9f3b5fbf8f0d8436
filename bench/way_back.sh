#!/bin/sh
# Instructions of reading a request back, counted by callgrind. The requests of the two samples of placing.sh are read back N times
# and 2N times; the difference of the two runs, divided by N, is what one takes, so that start-up, the placing and the check of the
# schema drop out. Then requests with many items in the body, headers and pairs of the query are read back once and twice, each in
# two sizes. `sh bench/way_back.sh [N]`, N is 1000 if left out.
here=$(cd "$(dirname "$0")/.." && pwd)
program=$here/crates/bench
times=${1:-1000}
work=$(mktemp -d)
trap 'rm -rf "$work"' EXIT
(cd "$program" && rt run -- get 1 back) >&2 </dev/null || exit 70

# count NAME WORD..: a run of the program with these words
count() {
    name=$1
    shift
    valgrind --tool=callgrind --callgrind-out-file="$work/$name" "$program/out/bench" "$@" 2>"$work/log" || {
        cat "$work/log" >&2
        exit 70
    }
    callgrind_annotate --threshold=100 "$work/$name" >"$work/$name.lines" 2>"$work/log" || exit 70
}

for sample in get put; do
    count few "$sample" "$times" back
    count many "$sample" $((2 * times)) back
    python3 "$here/bench/difference.py" "$sample back" "$times" "$work/few.lines" "$work/many.lines"
done

# grown WORD SIZE
grown() {
    count few "$1" "$2" 1
    count many "$1" "$2" 2
    python3 "$here/bench/difference.py" "$2 $1" 1 "$work/few.lines" "$work/many.lines"
}

for size in 16600 166000; do grown items "$size"; done
for size in 6500 65000; do grown headers "$size"; done
for size in 1000 10000; do grown pairs "$size"; done
