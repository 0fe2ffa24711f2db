#!/bin/sh
# Counts the instructions of a load by the built program and by a plain store in Rust, and compares what both print.
# Usage: bench/load.sh PROGRAM [COUNT], the built program keeper.
set -e
program=$1
count=${2:-100000}
folder=$(mktemp -d)
rustc --edition 2021 -O -o "$folder/plain" "$(dirname "$0")/load.rs"
"$program" load 7 "$count" > "$folder/keeper.said"
"$folder/plain" 7 "$count" > "$folder/plain.said"
cmp "$folder/keeper.said" "$folder/plain.said"
instructions() {
    valgrind --tool=callgrind --callgrind-out-file=/dev/null "$@" 2>&1 > /dev/null | sed -n 's/.*Collected : //p'
}
ours=$(instructions "$program" load 7 "$count")
plain=$(instructions "$folder/plain" 7 "$count")
echo "keeper $ours, plain $plain instructions for $count lines: $(echo "$ours $plain" | awk '{ printf "%.2f", $1 / $2 }')"
rm -r "$folder"
