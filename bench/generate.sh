#!/bin/sh
# What `generate` takes: instructions of the whole process, counted by callgrind, less those of `generate 0`, of 1000, 10,000 and
# 100,000 numbers, and peak memory at 100,000. Then the functions that take the most of 1000 numbers. `sh bench/generate.sh`.
here=$(cd "$(dirname "$0")/.." && pwd)
work=$(mktemp -d)
trap 'rm -rf "$work"' EXIT
"$here/smithy_bind" --build || exit 70
built=$here/crates/smithy_bind_program/out/smithy_bind_program

for count in 0 1000 10000 100000; do
    valgrind --tool=callgrind --callgrind-out-file="$work/$count" "$built" generate "$count" >"$work/told" 2>"$work/log" || {
        cat "$work/log" >&2
        exit 70
    }
    callgrind_annotate --threshold=100 "$work/$count" >"$work/$count.lines" 2>"$work/log" || exit 70
done
/usr/bin/time -f '%M' -o "$work/memory" "$built" generate 100000 >"$work/told" || exit 70

for count in 1000 10000 100000; do
    python3 "$here/bench/difference.py" "generate $count less generate 0" 1 "$work/0.lines" "$work/$count.lines" | head -n 1
done
echo "peak memory of generate 100000: $(($(tail -n 1 "$work/memory") / 1024)) MiB"
echo
python3 "$here/bench/difference.py" "generate 1000" 1 "$work/0.lines" "$work/1000.lines"
