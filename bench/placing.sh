#!/bin/sh
# Instructions of placing one request, counted by callgrind. Each sample is placed N times and 2N times; the difference of the
# two runs, divided by N, is what one request takes, so that start-up drops out. It is placed once from an input that keeps its
# writes, and once from one that tells them. `sh bench/placing.sh [N]`, N is 1000 if left out.
here=$(cd "$(dirname "$0")/.." && pwd)
program=$here/crates/bench
times=${1:-1000}
work=$(mktemp -d)
trap 'rm -rf "$work"' EXIT
(cd "$program" && rt run -- get 1) >&2 </dev/null || exit 70

count() {
    valgrind --tool=callgrind --callgrind-out-file="$work/$1$3.$2" "$program/out/bench" "$1" "$2" $3 2>"$work/log" || {
        cat "$work/log" >&2
        exit 70
    }
    callgrind_annotate --threshold=100 "$work/$1$3.$2" >"$work/$1$3.$2.lines" 2>"$work/log" || exit 70
}

for sample in get put; do
    for giving in '' told; do
        count "$sample" "$times" $giving
        count "$sample" $((2 * times)) $giving
        lines="$work/$sample$giving"
        python3 "$here/bench/difference.py" "$sample $giving" "$times" "$lines.$times.lines" "$lines.$((2 * times)).lines"
    done
done
