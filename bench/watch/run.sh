#!/bin/sh
# A million watches of 10,000 connections, ten at each path, of which those of 1,000 connections are dropped one
# connection after another: by the built program of the crate bench_watch, and by a plain one with two hash maps.
# Callgrind's count of instructions; what the drops take is the difference of a run with them and one without, so less
# what freeing those watches at the end takes, on either side.
# Usage: bench/watch/run.sh [PROGRAM [WATCHES [DROPPED]]], by default the built program of the crate bench_watch.
set -e
here=$(cd "$(dirname "$0")" && pwd)
program=${1:-$here/../../crates/bench_watch/out/bench_watch}
watches=${2:-1000000}
dropped=${3:-1000}
folder=$(mktemp -d)
trap 'rm -r "$folder"' EXIT
rustc --edition 2021 -O -o "$folder/plain" "$here/plain.rs"
count() {
    valgrind --tool=callgrind --callgrind-out-file=/dev/null "$@" 2> "$folder/told" > "$folder/said"
    sed -n 's/.*Collected *: *//p' "$folder/told"
}
ours_set=$(count "$program" "$watches" 0)
ours_all=$(count "$program" "$watches" "$dropped")
plain_set=$(count "$folder/plain" "$watches" 0)
plain_all=$(count "$folder/plain" "$watches" "$dropped")
awk -v n="$watches" -v m="$dropped" -v a="$ours_set" -v b="$ours_all" -v c="$plain_set" -v d="$plain_all" 'BEGIN {
    printf "set: %.0f instructions a watch, plain %.0f; %.2f times as many\n", a / n, c / n, a / c
    printf "dropped: %.0f instructions a connection, plain %.0f; %.2f times as many\n", (b - a) / m, (d - c) / m, (b - a) / (d - c)
}'
