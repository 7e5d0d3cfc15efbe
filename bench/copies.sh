#!/usr/bin/env bash
# What a copy of a state costs that is then changed at one place, by the number of its entries: the least processor time of five
# runs of `copies_bench`, with copies and without, in nanoseconds for one copy.
#
# Give the program, if it is not the proved one: bench/copies.sh PROGRAM
set -eu
case ${1:-} in -h | --help) exec sed -n '2,/^[^#]/s/^# \{0,1\}//p' "$0" ;; esac
top=$(dirname "$(readlink -f "$0")")/..
program=${1:-$top/crates/copies_bench/out/copies_bench}
[ $# -gt 0 ] || (cd "$top/crates/copies_bench" && rt run -- 0 0 >/dev/null)

# The least processor time of five calls, in milliseconds.
least_of_five() {
    local took user system TIMEFORMAT='%3U %3S'
    least=
    for _ in 1 2 3 4 5; do
        took=$({ time "$program" "$@" >/dev/null; } 2>&1)
        read -r user system <<<"${took//./}"
        took=$((10#$user + 10#$system))
        if [ -z "$least" ] || [ "$took" -lt "$least" ]; then least=$took; fi
    done
}

printf '%8s %8s %12s\n' entries copies nanoseconds
for entries in 10 100 1000 10000 100000; do
    least_of_five "$entries" 0
    without=$least
    copies=$((entries > 2000 ? 2000 : 20000))
    least_of_five "$entries" "$copies"
    printf '%8d %8d %12d\n' "$entries" "$copies" "$(((least - without) * 1000000 / copies))"
done
