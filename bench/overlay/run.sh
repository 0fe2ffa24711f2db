#!/bin/sh
# Lines a second and the most memory that was resident, of `keeper store` and of a BTreeMap of
# structs without an overlay, on the same lines: 200,000 mixed ones over 10,000 paths, and a million
# children under one parent beside the first 10,000 of them, and 200,000 lines of sessions that make
# ephemeral nodes and close. Then the time that one closing takes: a session that owns 100,000 nodes,
# and one that owns 10,000, each in a small tree and in one of a million other nodes.
# Usage: bench/overlay/run.sh [PROGRAM], by default the built program of the crate keeper.
set -e
here=$(cd "$(dirname "$0")" && pwd)
program=${1:-$here/../../crates/keeper/out/keeper}
folder=$(mktemp -d)
trap 'rm -r "$folder"' EXIT
rustc --edition 2021 -O -o "$folder/lines" "$here/lines.rs"
rustc --edition 2021 -O -o "$folder/plain" "$here/plain.rs"
"$folder/lines" mixed 200000 10000 > "$folder/mixed"
"$folder/lines" wide 10000 > "$folder/wide-10000"
"$folder/lines" wide 1000000 > "$folder/wide-1000000"
# NAME PROGRAM LINES WORDS..: the best of three runs
one() {
    name=$1
    file=$2
    shift 2
    for _ in 1 2 3; do
        /usr/bin/time -f '%e %U %M' -o "$folder/time" "$@" < "$file" > "$folder/said"
        cat "$folder/time"
    done | sort -n | head -n 1 | {
        read -r wall user memory
        count=$(wc -l < "$file")
        awk -v name="$name" -v count="$count" -v wall="$wall" -v user="$user" -v memory="$memory" 'BEGIN { printf "%s: %d lines, %.2f s (%.2f s user), %.0f lines a second, %d KiB resident at most\n", name, count, wall, user, count / (wall > 0 ? wall : 0.01), memory }'
    }
}
"$folder/lines" sessions 200000 > "$folder/sessions"
for lines in mixed sessions wide-10000 wide-1000000; do
    one "$lines, keeper" "$folder/$lines" "$program" store
    one "$lines, plain" "$folder/$lines" "$folder/plain"
done
# WORDS..: the least user and system time of three runs, in seconds
least() {
    for _ in 1 2 3; do
        /usr/bin/time -f '%U %S' -o "$folder/time" "$program" store < "$1" > "$folder/said"
        awk '{ print $1 + $2 }' "$folder/time"
    done | sort -n | head -n 1
}
for owned in 10000 100000; do
    for others in 0 1000000; do
        "$folder/lines" own $owned $others > "$folder/own"
        "$folder/lines" close $owned $others > "$folder/close"
        before=$(least "$folder/own")
        after=$(least "$folder/close")
        awk -v owned="$owned" -v others="$others" -v before="$before" -v after="$after" 'BEGIN { printf "closing a session of %d nodes beside %d others: %.2f s\n", owned, others, after - before }'
    done
done
