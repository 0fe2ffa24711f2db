#!/bin/sh
# Refuses each allocation of a run in turn, and looks that the program ends with status 6 and a beginning of
# the output that it has with ample memory, or does without that allocation: status 0 and the whole output. Usage: bench/refuse_memory.sh PROGRAM LINES
program=$1
lines=$2
work=$(mktemp -d) || exit 1
trap 'rm -rf "$work"' EXIT
cc -shared -fPIC -O1 -o "$work/refuse.so" "$(dirname "$0")/refuse_memory.c" -ldl || exit 1
"$program" store < "$lines" > "$work/whole"
REFUSE_COUNT="$work/count" LD_PRELOAD="$work/refuse.so" "$program" store < "$lines" > "$work/out" || exit 1
cmp -s "$work/out" "$work/whole" || { echo "another output under the count"; exit 1; }
total=$(cat "$work/count")
bad=0
spared=0
at=1
while [ "$at" -le "$total" ]; do
    REFUSE=$at LD_PRELOAD="$work/refuse.so" "$program" store < "$lines" > "$work/out" 2> "$work/err"
    status=$?
    head -c "$(wc -c < "$work/out")" "$work/whole" | cmp -s - "$work/out"
    prefix=$?
    if [ "$status" = 0 ] && cmp -s "$work/out" "$work/whole"; then spared=$((spared + 1)); at=$((at + 1)); continue; fi
    [ "$status" = 6 ] && [ "$prefix" = 0 ] || { bad=$((bad + 1)); echo "allocation $at: status $status, prefix $prefix: $(head -n 1 "$work/err")"; }
    at=$((at + 1))
done
echo "$total allocations refused in turn: $((total - spared - bad)) runs ended with status 6 and a beginning of the output, $spared did without, $bad did neither"
[ "$bad" = 0 ]
