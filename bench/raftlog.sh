#!/bin/sh
# Times messages of 64 entries with 100 bytes of data from a leader's log into those of two followers, and the same
# rounds over Rust's queues of vectors: user time, best of five; or callgrind's count of instructions.
# Usage: bench/raftlog.sh PROGRAM [callgrind], the built program of the crate bench_raftlog.
set -e
program=$1
way=${2:-time}
folder=$(mktemp -d)
trap 'rm -r "$folder"' EXIT
rustc --edition 2021 -O -o "$folder/raftlog" "$(dirname "$0")/raftlog.rs"
if [ "$way" = callgrind ]; then
    for each in "$program" "$folder/raftlog"; do
        valgrind --tool=callgrind --callgrind-out-file=/dev/null "$each" 200 2> "$folder/told" > "$folder/said"
        sed -n 's/.*Collected *: *//p' "$folder/told"
    done | paste -s | awk '{ printf "%.0f instructions an entry, plain %.0f; %.2f times as many\n", $1 / 12800, $2 / 12800, $1 / $2 }'
    exit
fi
for each in "$program" "$folder/raftlog"; do
    best=
    for _ in 1 2 3 4 5; do
        spent=$(/bin/sh -c '"$1" 20000 > "$2"; times' sh "$each" "$folder/said" | tail -1 | cut -d" " -f1)
        seconds=$(echo "$spent" | sed 's/m/ /; s/s//' | awk '{ print $1 * 60 + $2 }')
        if [ -z "$best" ] || [ "$(echo "$seconds $best" | awk '{ print ($1 < $2) }')" = 1 ]; then best=$seconds; fi
    done
    echo "$(basename "$each"): $best s for 1,280,000 entries: $(cat "$folder/said")"
done
