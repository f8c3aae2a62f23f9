#!/bin/sh
# How many allocations of one unit a second the allocator makes on devices of 64 MiB, 16 GiB and 128 GiB: from empty until
# nothing is free, and from 95 of 100 units used, where 2 of every 40 units are free. It builds crates/zr_bench and runs
# each three times, of which the fastest counts. The aim is that in each state the three sizes lie within a factor of 2 of
# each other.
#
# Measured on a virtual machine with 4 processors (Intel Xeon, 2.50 GHz, model 85) that other work kept busy:
#
# device        units state     allocations   ns each       a second
# 64 MiB        15232 empty         3046400        17       58708078
# 64 MiB        15232 95% full      1584000        20       48839967
# 16 GiB      4193152 empty         4193152        16       59640204
# 16 GiB      4193152 95% full      1677504        31       31578546
# 128 GiB    33553280 empty        33553280        17       57301913
# 128 GiB    33553280 95% full      1677664        31       31832824
# fastest to slowest, empty: 1.04
# fastest to slowest, 95% full: 1.55
#
# Making the device of 128 GiB takes 270 MB, about 4 KiB for each of its 65,534 metaslabs, and is not timed.
set -eu
cd "$(dirname "$0")/../crates/zr_bench"
rt run > /dev/null 2>&1
program=$PWD/out/zr_bench

# measure SIZE UNITS FULL ROUNDS EXPECTED: a line of the table. Each round has to hand out all that is free.
measure() {
    best=
    for _ in 1 2 3; do
        told=$("$program" "$2" "$3" "$4")
        made=${told% *}
        took=${told#* }
        test "$made" -eq $(($4 * $5))
        if [ -z "$best" ] || [ "$took" -lt "$best" ]; then best=$took; fi
    done
    state=empty
    if [ "$3" -eq 1 ]; then state='95% full'; fi
    printf '%-8s %10d %-9s %11d %9d %14d\n' "$1" "$2" "$state" "$made" $((best / made)) $((made * 1000000000 / best))
}

# both SIZE UNITS ROUNDS ROUNDS: the device empty and nearly full, so many rounds each.
both() {
    measure "$1" "$2" 0 "$3" "$2"
    measure "$1" "$2" 1 "$4" $(($2 - $2 / 40 * 38))
}

printf '%-8s %10s %-9s %11s %9s %14s\n' device units state allocations 'ns each' 'a second'
{
    both '64 MiB' 15232 200 2000
    both '16 GiB' 4193152 1 8
    both '128 GiB' 33553280 1 1
} | awk '
    { print; fflush(); state = NR % 2; if (NR < 3 || $NF < least[state]) least[state] = $NF; if ($NF > most[state]) most[state] = $NF }
    END {
        printf "fastest to slowest, empty: %.2f\n", most[1] / least[1]
        printf "fastest to slowest, 95%% full: %.2f\n", most[0] / least[0]
    }'
