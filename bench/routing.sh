#!/bin/sh
# Instructions of finding an operation by its route, counted by callgrind: `Routes::find` over 10 and 1,000 routes, and `matchit`
# over the same paths. Each target is found N times and 2N times; the difference of the two runs, divided by N, is what one
# takes, so that start-up and the adding of the routes drop out. `sh bench/routing.sh [N]`, N is 1000 if left out.
here=$(cd "$(dirname "$0")/.." && pwd)
program=$here/crates/bench
times=${1:-1000}
work=$(mktemp -d)
trap 'rm -rf "$work"' EXIT
(cd "$program" && rt run -- routes 2 0 1) >&2 </dev/null || exit 70

# count WORD RESOURCES FORM TIMES: the instructions of a run
count() {
    valgrind --tool=callgrind --callgrind-out-file="$work/out" "$program/out/bench" "$@" 2>"$work/log" || {
        cat "$work/log" >&2
        exit 70
    }
    sed -n 's/^summary: //p' "$work/out"
}

# one WORD RESOURCES FORM: what one look-up takes
one() {
    few=$(count "$@" "$times") || exit 70
    many=$(count "$@" $((2 * times))) || exit 70
    echo $(((many - few) / times))
}

echo "| Target | find, 10 routes | find, 1,000 routes | matchit, 10 | matchit, 1,000 |"
echo "|---|---|---|---|---|"
form=0
for target in /v1/R /v1/R/ID /v1/R/ID/tags /v1/R/ID/items/ITEM /v1/R/ID/files/x/y; do
    echo "| \`$target\` | $(one routes 2 $form) | $(one routes 200 $form) | $(one matchit 2 $form) | $(one matchit 200 $form) |"
    form=$((form + 1))
done
