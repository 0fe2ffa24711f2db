#!/bin/sh
# The memory that stays after half a million nodes were made and deleted, beside that after 10,000:
# the most that was resident, less the bytes of the input, which `store` reads whole. Once with all
# changes committed, once with every second pair truncated.
# Usage: bench/overlay/memory.sh [PROGRAM], by default the built program of the crate keeper.
set -e
here=$(cd "$(dirname "$0")" && pwd)
program=${1:-$here/../../crates/keeper/out/keeper}
folder=$(mktemp -d)
trap 'rm -r "$folder"' EXIT
rustc --edition 2021 -O -o "$folder/lines" "$here/lines.rs"
for kind in churn churn-cut; do
    for count in 10000 500000; do
        "$folder/lines" $kind $count > "$folder/script"
        /usr/bin/time -f '%e %M' -o "$folder/time" "$program" store < "$folder/script" > "$folder/said"
        read -r wall memory < "$folder/time"
        bytes=$(wc -c < "$folder/script")
        echo "$kind $count: $wall s, $memory KiB resident at most, $((memory - bytes / 1024)) KiB without the input's bytes"
    done
done
