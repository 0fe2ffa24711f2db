#!/bin/sh
# Times a home over real files, of COUNT nodes with 100 bytes and of as many entries: the image read and adopted by a
# storage, the same and an image written anew, and a journal read; beside a plain program over the same bytes with a
# `BTreeMap`. User and system time, best of three, and the most memory; or callgrind's count of instructions.
# Usage: bench/homes.sh PROGRAM [COUNT [callgrind]], the built program of the crate bench_homes.
set -e
program=$(realpath "$1")
count=${2:-1000000}
way=${3:-time}
folder=$(mktemp -d)
trap 'rm -r "$folder"' EXIT
rustc --edition 2021 -O -o "$folder/plain" "$(dirname "$0")/homes.rs"
cd "$folder"

# the files of a home, fresh for each run
fresh() {
    rm -f n1.j0 n1.j1 n1.i0 n1.i1
    cp kept.j0 n1.j0
    cp kept.i0 n1.i0
}

instructions() {
    fresh
    valgrind --tool=callgrind --callgrind-out-file=/dev/null "$1" "$2" 2> told > said
    sed -n 's/.*Collected *: *//p' told
}

seconds() {
    best=
    for _ in 1 2 3; do
        fresh
        /usr/bin/time -f '%U %S %M' -o told "$1" "$2" > said
        spent=$(awk '{ printf "%.2f %d", $1 + $2, $3 }' told)
        best=$(printf '%s\n%s\n' "$best" "$spent" | sed '/^$/d' | sort -n | head -1)
    done
    echo "$best"
}

side_by_side() {
    if [ "$way" = callgrind ]; then
        ours=$(instructions "$program" "$2")
        plain=$(instructions ./plain "$2")
        awk -v what="$1 $2" -v a="$ours" -v b="$plain" 'BEGIN { printf "%s: %.0f instructions, plain %.0f, %.2f times as many\n", what, a, b, a / b }'
    else
        ours=$(seconds "$program" "$2")
        plain=$(seconds ./plain "$2")
        echo "$ours $plain" | awk -v what="$1 $2" '{ printf "%s: %.2f s and %d KiB, plain %.2f s and %d KiB, %.2f times as long\n", what, $1, $2, $3, $4, $1 / $3 }'
    fi
}

./plain make-image "$count"
mv n1.j0 kept.j0
mv n1.i0 kept.i0
side_by_side image read
side_by_side image adopt
side_by_side image write
fresh
"$program" adopt
./plain make-log "$count"
mv n1.j0 kept.j0
mv n1.i0 kept.i0
side_by_side journal read
