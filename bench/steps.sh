#!/bin/sh
# What an extent costs where a checkpoint's kept extents are discarded, 64 at a step, where those that are left of a removal
# are copied, and where scattered units of it are marked, with 10^4, 10^5 and 10^6 of them. It builds crates/zr_bench and
# runs each size twelve times, of which the fastest counts: each time in a process of its own, so that all write memory that
# is new to them. The aim is that from one size to the next what an extent costs grows by less than 2. A mark costs three
# ways down a tree of pages: whether it is there, whether a page starts at its end, and where it goes. It moves nothing that
# grows with the set, but each way reads a node here and a node there, so it grows with what the caches have no room for.
#
# Measured on a virtual machine with 4 processors (Intel Xeon, 2.50 GHz) on which some twenty other programs ran:
#
#    extents step(64), ns an extent   copied, ns an extent   marked, ns an extent
#      10000                    4.3                   17.3                  381.3
#     100000                    4.9                   21.8                 1078.4
#    1000000                    8.7                   39.9                 2774.4
# most growth from one size to the next: 1.78, 1.83 and 2.83. With the pages in one array, measured in turns with these, a
# mark took 233.9, 787.4 and 1418.8, and a copy 21.0, 25.3 and 51.8.
set -eu
cd "$(dirname "$0")/../crates/zr_bench"
rt run > /dev/null 2>&1
program=$PWD/out/zr_bench

# measure EXTENTS: a line of the table, in picoseconds. All extents have to be given.
measure() {
    discard=
    copy=
    mark=
    for _ in 1 2 3 4 5 6 7 8 9 10 11 12; do
        set -- "$1" $("$program" "$1")
        test "$2" -eq "$1" && test "$3" -eq "$1" && test "$4" -eq "$1"
        if [ -z "$discard" ] || [ "$5" -lt "$discard" ]; then discard=$5; fi
        if [ -z "$copy" ] || [ "$6" -lt "$copy" ]; then copy=$6; fi
        if [ -z "$mark" ] || [ "$7" -lt "$mark" ]; then mark=$7; fi
    done
    echo "$1 $((discard * 1000 / $1)) $((copy * 1000 / $1)) $((mark * 1000 / $1))"
}

printf '%10s %22s %22s %22s\n' extents 'step(64), ns an extent' 'copied, ns an extent' 'marked, ns an extent'
for extents in 10000 100000 1000000; do measure "$extents"; done | awk '
    { printf "%10d %22.1f %22.1f %22.1f\n", $1, $2 / 1000, $3 / 1000, $4 / 1000; fflush() }
    NR > 1 { if ($2 / step > steps) steps = $2 / step; if ($3 / copy > copies) copies = $3 / copy }
    NR > 1 { if ($4 / mark > marks) marks = $4 / mark }
    { step = $2; copy = $3; mark = $4 }
    END { printf "most growth from one size to the next: %.2f, %.2f and %.2f\n", steps, copies, marks }'
