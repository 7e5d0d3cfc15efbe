#!/usr/bin/env bash
# What one step of `run` costs over a state of many entries. Each kind of step is run a number of times and not at all, and the
# difference in processor time is told for one step, in microseconds: the least of five runs each.
#
# asserts  a state of that many places, which the run file gives; an `assert` consumes in a copy of the state
# folds    the same places; a `fold` consumes the body in a copy of the state
# calls    that many instances are held; a call copies the state, and keeps each of them when the rest is forgotten
#
# Give the program, if it is not the proved one: bench/heaps.sh PROGRAM. A run file of 1,048,576 bytes has room for some 65,000
# places, and a file of weight 100,000 for some 16,000 instances beside the calls.
set -eu
case ${1:-} in -h | --help) exec sed -n '2,/^[^#]/s/^# \{0,1\}//p' "$0" ;; esac
top=$(dirname "$(readlink -f "$0")")/..
program=${1:-$top/remduska}
folder=$(mktemp -d)
trap 'rm -r "$folder"' EXIT
[ $# -gt 0 ] || "$top/remduska" --build    # the program is built before anything is measured

many() { # COUNT LINE
    yes "$2" | head -n "$1" || true
}

write_files() { # KIND ENTRIES STEPS
    local method=$folder/file.vpr choices=$folder/file.run
    case $1 in
        asserts)
            { printf 'field f: Int method m(x: Ref) { inhale acc(x.f)\n'; many "$3" 'assert acc(x.f)'; printf '}'; } >"$method"
            { printf 'viper run\nvar x #1\n'; seq -f 'heap f #%.0f 5' "$2"; printf 'pick true\n'; } >"$choices" ;;
        folds)
            { printf 'field f: Int method m(x: Ref) { inhale acc(x.f)\n'; many "$3" 'fold Q(x) unfold Q(x)'; printf '} predicate Q(x: Ref) { acc(x.f) }'; } >"$method"
            { printf 'viper run\nvar x #1\n'; seq -f 'heap f #%.0f 5' "$2"; printf 'pick true\n'; } >"$choices" ;;
        calls)
            { printf 'predicate P(i: Int) method c() method m(x: Ref) {\n'; seq -f 'inhale P(%.0f)' "$2"; many "$3" 'c();'; printf '}'; } >"$method"
            { printf 'viper run\npick true\n'; many "$3" state; } >"$choices" ;;
    esac
}

# The least processor time of five calls, in milliseconds.
least_of_five() {
    local took user system TIMEFORMAT='%3U %3S'
    least=
    for _ in 1 2 3 4 5; do
        took=$({ time "$program" run "$folder/file.vpr" m "$folder/file.run" >"$folder/out" 2>&1 || true; } 2>&1)
        read -r user system <<<"${took//./}"
        took=$((10#$user + 10#$system))
        if [ -z "$least" ] || [ "$took" -lt "$least" ]; then least=$took; fi
    done
    grep -q '^// done' "$folder/out" || { head -n 1 "$folder/out"; exit 1; }
}

printf '%-8s %8s %6s %12s\n' step entries steps microseconds
for kind in asserts folds calls; do
    case $kind in
        asserts) steps=2000 sizes='10 100 1000 10000 65000' ;;
        folds) steps=1000 sizes='10 100 1000 10000 65000' ;;
        calls) steps=200 sizes='10 100 1000 10000' ;;
    esac
    for size in $sizes; do
        write_files "$kind" "$size" 0
        least_of_five
        without=$least
        write_files "$kind" "$size" "$steps"
        least_of_five
        printf '%-8s %8d %6d %12d\n' "$kind" "$size" "$steps" "$(((least - without) * 1000 / steps))"
    done
done
