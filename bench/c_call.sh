#!/bin/sh
# Instructions of one call of the library from Rust on the second sample job, beside those of the same job run in Rattle, counted
# by callgrind. Each program answers the job N times and 2N times; the difference of the two, divided by N, is what one takes.
# `sh bench/c_call.sh [N]`, N is 1000 if left out.
here=$(cd "$(dirname "$0")/.." && pwd)
times=${1:-1000}
work=$(mktemp -d)
trap 'rm -rf "$work"' EXIT

(cd "$here/crates/smithy_bind_c" && rt lib) >&2 </dev/null || exit 70
SMITHY_BIND_LIBC=$(dirname "$(rt doc)")/c CARGO_TARGET_DIR=$work cargo build -q --offline --release --example times \
    --manifest-path "$here/bindings/rust/Cargo.toml" || exit 70
(cd "$here/crates/bench" && rt run -- get 1) >&2 </dev/null || exit 70

# count NAME WORD..: runs the words with N and with 2N behind them
count() {
    name=$1
    shift
    for each in "$times" $((2 * times)); do
        valgrind --tool=callgrind --callgrind-out-file="$work/$name.$each" "$@" "$each" <"$here/bench/second_sample.json" 2>"$work/log" || {
            cat "$work/log" >&2
            exit 70
        }
        callgrind_annotate --threshold=100 "$work/$name.$each" >"$work/$name.$each.lines" 2>"$work/log" || exit 70
    done
    python3 "$here/bench/difference.py" "$name" "$times" "$work/$name.$times.lines" "$work/$name.$((2 * times)).lines" job
}

count rust "$work/release/examples/times"
count rattle "$here/crates/bench/out/bench" job
