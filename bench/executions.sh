#!/usr/bin/env bash
# How the time of `exec` grows with the number of turns and called bodies: turns of one loop that write a field, calls in such a
# loop, a method that calls itself, and turns that fold and unfold; each over a heap of ten places with one of them held, and over
# one of 10,000 places with 101 held. Each line has the kind of execution, the places, how many turns and bodies begin, and the
# least of five times in milliseconds: processor time, the start of the process and the reading of its files included.
#
# Give the program, if it is not the proved one: bench/executions.sh PROGRAM
set -eu
case ${1:-} in -h | --help) exec sed -n '2,/^[^#]/s/^# \{0,1\}//p' "$0" ;; esac
top=$(dirname "$(readlink -f "$0")")/..
program=${1:-$top/remduska}
folder=$(mktemp -d)
trap 'rm -r "$folder"' EXIT
[ $# -gt 0 ] || "$top/remduska" --build    # the program is built before anything is measured

write_files() { # KIND PLACES HELD COUNT
    local file=$folder/file.vpr
    {
        echo 'field f: Int'
        echo 'predicate cell(x: Ref) { acc(x.f) }'
        echo 'method step(x: Ref) requires acc(x.f) ensures acc(x.f) { x.f := 1 }'
        echo 'method again(x: Ref, n: Int) requires acc(x.f) ensures acc(x.f) { if (n > 0) { again(x, n - 1) } }'
        echo 'method m(x: Ref, n: Int) requires acc(x.f) {'
        echo 'var y: Ref := null'
        seq "$3" | sed 's/.*/y := new(f)/'
        case $1 in
            turns) echo 'var i: Int := 0 while (i < n) { x.f := i i := i + 1 }' ;;
            calls) echo 'var i: Int := 0 while (2 * i < n) { step(x) i := i + 1 }' ;;
            deep) echo 'again(x, n - 1)' ;;
            folds) echo 'var i: Int := 0 while (i < n) { fold cell(x) unfold cell(x) i := i + 1 }' ;;
        esac
        echo '}'
    } >"$file"
    {
        printf 'viper run\nvar x #1\nvar n %d\n' "$4"
        seq "$2" | sed 's/.*/heap f #& 3/'
        seq "$3" | awk '{ print "fresh #" 20000 + $1; print "value 7" }'
    } >"$folder/file.run"
}

# The least processor time of five calls, in milliseconds.
least_of_five() { # COUNT
    local took user system TIMEFORMAT='%3U %3S'
    least=
    for _ in 1 2 3 4 5; do
        took=$({ time "$program" exec "$folder/file.vpr" m "$folder/file.run" "$1" >"$folder/out" 2>&1 || true; } 2>&1)
        read -r user system <<<"${took//./}"
        took=$((10#$user + 10#$system))
        if [ -z "$least" ] || [ "$took" -lt "$least" ]; then least=$took; fi
    done
}

printf '%-6s %7s %7s %6s  %s\n' kind places begun ms outcome
for kind in turns calls deep folds; do
    for places in 10 10000; do
        held=$((places / 100))
        for count in 1250 2500 5000 10000; do
            write_files "$kind" "$places" "$held" "$count"
            least_of_five "$count"
            printf '%-6s %7d %7d %6d  %s\n' "$kind" "$places" "$count" "$least" "$(head -n 1 "$folder/out")"
        done
    done
done
