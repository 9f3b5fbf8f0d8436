#!/bin/sh
# What a whole job takes: time and peak memory of jobs with a map of many members in the body, and the instructions from the second
# sample job to its request, counted by callgrind. That job runs N times and 2N times in one process; the difference of the two,
# divided by N, is what one takes. `sh bench/jobs.sh [N]`, N is 1000 if left out.
here=$(cd "$(dirname "$0")/.." && pwd)
times=${1:-1000}
work=$(mktemp -d)
trap 'rm -rf "$work"' EXIT
"$here/smithy_bind" --build || exit 70
python3 "$here/bench/large_maps.py" "$here/crates/smithy_bind_program/out/smithy_bind_program" "$work" || exit 70

(cd "$here/crates/bench" && rt run -- get 1) >&2 </dev/null || exit 70
for count in "$times" $((2 * times)); do
    valgrind --tool=callgrind --callgrind-out-file="$work/job.$count" "$here/crates/bench/out/bench" job "$count" \
        <"$here/bench/second_sample.json" 2>"$work/log" || {
        cat "$work/log" >&2
        exit 70
    }
    callgrind_annotate --threshold=100 "$work/job.$count" >"$work/job.$count.lines" 2>"$work/log" || exit 70
done
python3 "$here/bench/difference.py" job "$times" "$work/job.$times.lines" "$work/job.$((2 * times)).lines"
