#!/bin/sh
# Times the turn lock against std's Mutex in Rust, and prints the ratio of the median times (turn / mutex) for each case.
# It wants rustc, and crates/bench_turn built by `rt run`. A case has the same number of calls in all at each number of threads.
# The words are the rounds for each case (9 if left out); the two programs take turns in a round.
cd "$(dirname "$0")/../.." || exit 1
rounds=${1:-9}
turn=crates/bench_turn/out/bench_turn
mutex=$(mktemp) || exit 1
trap 'rm -f "$mutex"' EXIT
rustc --edition 2021 -O -o "$mutex" bench/turn/mutex.rs || exit 1
[ -x "$turn" ] || { echo "no $turn: run 'rt run' in crates/bench_turn first" >&2; exit 1; }

median() { sort -n | sed -n "$(((rounds + 1) / 2))p"; }

# ratio THREADS CALLS-IN-ALL MIXES
ratio() {
    calls=$(($2 / $1))
    turns= mutexes=
    for _ in $(seq "$rounds"); do
        turns="$turns $("$turn" "$1" "$calls" "$3" time | tail -1)"
        mutexes="$mutexes $("$mutex" "$1" "$calls" "$3" time | tail -1)"
    done
    a=$(printf '%s\n' $turns | median)
    b=$(printf '%s\n' $mutexes | median)
    awk -v t="$1" -v m="$3" -v a="$a" -v b="$b" -v n="$2" \
        'BEGIN { printf "threads %2d mixes %3d: turn / mutex %.2f (%.0f and %.0f ns a call)\n", t, m, a / b, a * 1000 / n, b * 1000 / n }'
}

for threads in 1 4 32; do
    ratio "$threads" 1600000 0
done
for threads in 1 4 32; do
    ratio "$threads" 320000 "${MIXES:-300}"
done
