#!/bin/sh
# Times pieces of 64 requests of get or set of one client through the events of a node: a piece is taken, the entries of its
# writes are applied, and what is ready is drained. First with 10 connections and 100 watches, then with 10,000 connections
# and 100,000 watches: the time of all rounds without that of the start, user time, the best of five.
# Then, where the built program `keeper` is named too, the sets of a node with 10 connections beside `keeper store`, which takes
# the same sets and commits as lines.
# Usage: bench/node.sh PROGRAM [KEEPER], the built program of the crate bench_node and that of the crate keeper.
set -e
program=$1
keeper=$2
folder=$(mktemp -d)
trap 'rm -r "$folder"' EXIT
# the best user time of a run, in seconds
best() {
    for _ in 1 2 3 4 5; do
        spent=$(/bin/sh -c '"$@" > /dev/null; times' sh "$program" "$@" | tail -1 | cut -d" " -f1)
        echo "$spent" | sed 's/m/ /; s/s//' | awk '{ print $1 * 60 + $2 }'
    done | sort -n | head -n 1
}
for kind in get set; do
    rounds=20000
    if [ $kind = set ]; then rounds=4000; fi
    for connections in 10 10000; do
        start=$(best $kind $connections 0)
        all=$(best $kind $connections $rounds)
        echo "$kind $connections $rounds $start $all"
    done > "$folder/times"
    awk '{ spent[NR] = $5 - $4; n = $3 * 64; printf "%s, %d connections: %.0f requests a second\n", $1, $2, n / spent[NR] } END { printf "%s: %.2f times the time of a node with 10\n", $1, spent[2] / spent[1] }' "$folder/times"
done
if [ -z "$keeper" ]; then exit 0; fi
# the lines of so many pieces
lines() {
    awk -v pieces="$1" 'BEGIN {
        data = sprintf("%200s", ""); gsub(/  /, "78", data)
        print "open 30000 00000000000000000000000000000000\ncommit\ncreate 1 /a 0 " data "\ncommit"
        for (k = 0; k < pieces; k++) {
            for (n = 0; n < 64; n++) print "set 1 /a " data " -1"
            for (n = 0; n < 64; n++) print "commit"
        }
    }'
}
# the best user time of a run over lines, in seconds
best_of_lines() {
    for _ in 1 2 3 4 5; do
        spent=$(/bin/sh -c '"$1" store < "$2" > /dev/null; times' sh "$keeper" "$1" | tail -1 | cut -d" " -f1)
        echo "$spent" | sed 's/m/ /; s/s//' | awk '{ print $1 * 60 + $2 }'
    done | sort -n | head -n 1
}
lines 4000 > "$folder/lines"
lines 0 > "$folder/none"
store=$(best_of_lines "$folder/lines")
none=$(best_of_lines "$folder/none")
awk -v store="$store" -v none="$none" '$1 == "set" && $2 == 10 { node = $5 - $4; printf "set: %.2f times the time of keeper store\n", node / (store - none) }' "$folder/times"
