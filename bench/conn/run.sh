#!/bin/sh
# Requests a second through a connection: pieces of 64 requests of getData or setData are fed, join, are answered and
# drained, by the built program of the crate bench_conn and by a plain one. User time, the best of five runs; with
# callgrind's count of instructions in its place: bench/conn/run.sh PROGRAM callgrind.
# Usage: bench/conn/run.sh [PROGRAM [callgrind]], by default the built program of the crate bench_conn.
set -e
here=$(cd "$(dirname "$0")" && pwd)
program=${1:-$here/../../crates/bench_conn/out/bench_conn}
way=${2:-time}
folder=$(mktemp -d)
trap 'rm -r "$folder"' EXIT
rustc --edition 2021 -O -o "$folder/plain" "$here/plain.rs"
# the best user time of a program, in hundredths of a second
best() {
    for _ in 1 2 3 4 5; do
        /usr/bin/time -f '%U' -o "$folder/time" "$@" > "$folder/said"
        cat "$folder/time"
    done | sort -n | head -n 1
}
# how many instructions a program takes
count() {
    valgrind --tool=callgrind --callgrind-out-file=/dev/null "$@" 2> "$folder/told" > "$folder/said"
    sed -n 's/.*Collected *: *//p' "$folder/told"
}
for kind in get set; do
    if [ "$way" = callgrind ]; then
        rounds=1000
        ours=$(count "$program" $kind $rounds)
        plain=$(count "$folder/plain" $kind $rounds)
        awk -v what="$kind" -v n=$rounds -v ours="$ours" -v plain="$plain" 'BEGIN { printf "%s: %.0f instructions a request, plain %.0f; %.2f times as many\n", what, ours / n / 64, plain / n / 64, ours / plain }'
    else
        rounds=50000
        ours=$(best "$program" $kind $rounds)
        plain=$(best "$folder/plain" $kind $rounds)
        awk -v what="$kind" -v n=$rounds -v ours="$ours" -v plain="$plain" 'BEGIN { printf "%s: %.1f million requests a second, plain %.1f; %.2f times its time\n", what, n * 64 / ours / 1e6, n * 64 / plain / 1e6, ours / plain }'
    fi
done
