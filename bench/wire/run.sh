#!/bin/sh
# Frames a second of create, set and get: requests read and replies written, by the built program of
# the crate bench_wire and by a plain codec of the same records. User time, the best of five runs.
# Usage: bench/wire/run.sh [PROGRAM], by default the built program of the crate bench_wire.
set -e
here=$(cd "$(dirname "$0")" && pwd)
program=${1:-$here/../../crates/bench_wire/out/bench_wire}
folder=$(mktemp -d)
trap 'rm -r "$folder"' EXIT
rustc --edition 2021 -O -o "$folder/plain" "$here/plain.rs"
rounds=2000000
# the best user time of a program, in hundredths of a second
best() {
    for _ in 1 2 3 4 5; do
        /usr/bin/time -f '%U' -o "$folder/time" "$@" > "$folder/said"
        cat "$folder/time"
    done | sort -n | head -n 1
}
for way in read write; do
    for kind in create set get; do
        ours=$(best "$program" $way $kind $rounds)
        plain=$(best "$folder/plain" $way $kind $rounds)
        awk -v what="$way $kind" -v n=$rounds -v ours="$ours" -v plain="$plain" 'BEGIN { printf "%s: %.1f million frames a second, plain %.1f; %.2f times its time\n", what, n / ours / 1e6, n / plain / 1e6, ours / plain }'
    done
done
