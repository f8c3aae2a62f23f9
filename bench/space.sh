#!/bin/sh
# What it costs to free a block of a pool and to take another one for it, with 10^4, 10^5 and 10^6 extents held: 10^5 times, a
# block here and a block there, with the end of a group behind each 64. It builds crates/zr_bench and runs each size five
# times, of which the fastest counts. The bound is that from one size to the next it grows by less than 2. A free looks first
# whether it may be done, and then changes the sets of its device, a search by halves and a page of a tree each; an allocation
# asks the lowest metaslab that has a place.
set -eu
cd "$(dirname "$0")/../crates/zr_bench"
rt run > /dev/null 2>&1
program=$PWD/out/zr_bench
count=100000

# measure EXTENTS: a line of the table, in picoseconds. All blocks have to be freed and taken.
measure() {
    best=
    for _ in 1 2 3 4 5; do
        set -- "$1" $("$program" "$1" "$count")
        test "$2" -eq "$count"
        if [ -z "$best" ] || [ "$3" -lt "$best" ]; then best=$3; fi
    done
    echo "$1 $((best * 1000 / count))"
}

printf '%10s %26s\n' extents 'free and alloc, ns a block'
for extents in 10000 100000 1000000; do measure "$extents"; done | awk '
    { printf "%10d %26.1f\n", $1, $2 / 1000; fflush() }
    NR > 1 && $2 / last > most { most = $2 / last }
    { last = $2 }
    END { printf "most growth from one size to the next: %.2f of 2, %s\n", most, most < 2 ? "met" : "MISSED" }'
