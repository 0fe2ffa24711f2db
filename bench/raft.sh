#!/bin/sh
# Times messages of 64 entries with 100 bytes of data through a cluster of three members, and the same
# rounds by the same rules over queues of vectors in Rust: user time, best of five.
# Usage: bench/raft.sh PROGRAM, the built program of the crate bench_raft.
set -e
program=$1
folder=$(mktemp -d)
rustc --edition 2021 -O -o "$folder/raft" "$(dirname "$0")/raft.rs"
for each in "$program" "$folder/raft"; do
    best=
    for _ in 1 2 3 4 5; do
        spent=$(/bin/sh -c '"$1" 20000 > "$2"; times' sh "$each" "$folder/said" | tail -1 | cut -d" " -f1)
        seconds=$(echo "$spent" | sed 's/m/ /; s/s//' | awk '{ print $1 * 60 + $2 }')
        if [ -z "$best" ] || [ "$(echo "$seconds $best" | awk '{ print ($1 < $2) }')" = 1 ]; then best=$seconds; fi
    done
    echo "$(basename "$each"): $best s for 1,280,000 entries: $(cat "$folder/said")"
done
rm -r "$folder"
