#!/bin/sh
# Times ten million pushes and pops of 100 bytes at 10, 1,000 and 100,000 waiting strings,
# through a region and through Rust's VecDeque<Vec<u8>>.
# Usage: bench/region.sh PROGRAM, the built program of the crate bench_region.
set -e
program=$1
folder=$(mktemp -d)
rustc -O -o "$folder/region" "$(dirname "$0")/region.rs"
for waiting in 10 1000 100000; do
    for each in "$program" "$folder/region"; do
        start=$(date +%s%N)
        "$each" 10000000 100 "$waiting" > "$folder/said"
        end=$(date +%s%N)
        echo "$waiting waiting, $(basename "$(dirname "$each")")/$(basename "$each"): $(((end - start) / 1000000)) ms: $(cat "$folder/said")"
    done
done
rm -r "$folder"
