#!/usr/bin/env bash
# How long the formulas of `vc` are, and how its time and memory grow.
#
# First the programs in examples/, as `translate` writes them, each line with the procedures that assert something, their bytes, the
# labels and so the formulas, the least and the most bytes of a formula for each byte of its procedure, and the processor time of one
# call in milliseconds, the least of three, the start of the process included.
#
# Then procedures of four lengths, each line with the kind, its length, the bytes of the procedure and of the formula, the second for
# each byte of the first, the least of three times in milliseconds, and the most memory that the process held, in MB:
# assigns  so many assignments to one local
# asserts  so many assertions, of which the last has the label
# updates  so many updates of one map
# blocks   so many `if`s one after the other, each of which changes the same local
# locals   so many `if`s, and as many locals, each of which one of the `if`s changes
# nested   `if`s in each other, so deep, and in the innermost an assignment to each of 200 locals
#
# Give the program, if it is not the proved one: bench/conditions.sh PROGRAM
set -eu
case ${1:-} in -h | --help) exec sed -n '2,/^[^#]/s/^# \{0,1\}//p' "$0" ;; esac
/usr/bin/env time -f '' true 2>/dev/null || { echo 'GNU time is needed' >&2 && exit 1; }
top=$(dirname "$(readlink -f "$0")")/..
program=${1:-$top/remduska}
folder=$(mktemp -d)
trap 'rm -r "$folder"' EXIT
[ $# -gt 0 ] || "$top/remduska" --build    # the program is built before anything is measured
prelude=$(sed '/^procedure/,$d' "$top/examples/first.bpl")

# Each label of a text, a line for each: the procedure, its bytes, and the label.
labels() { # FILE
    awk '/^procedure/ { name = $2; sub(/\(.*/, "", name) }
        { bytes[name] += length($0) + 1 }
        match($0, /assert \{:msg "[^"]*"/) && !(seen[name, $3, $4, $5]++) { names[++n] = name; label[n] = substr($0, RSTART + 14, RLENGTH - 15) }
        END { for (i = 1; i <= n; i++) print names[i], bytes[names[i]], label[i] }' "$1"
}

# The formula of each label, one after the other.
formulas() { # FILE
    local name bytes at part kind
    while read -r name bytes at part kind; do "$program" vc "$1" "$name" "$at" "$part" "$kind"; done <"$folder/labels"
}

printf '%-13s %10s %7s %8s %6s %6s %6s\n' example procedures bytes formulas least most ms
TIMEFORMAT='%3U %3S'
for example in "$top"/examples/*.vpr; do
    case $example in *_wrong.vpr) continue ;; esac
    "$program" translate "$example" >"$folder/file.bpl"
    labels "$folder/file.bpl" >"$folder/labels"
    formulas "$folder/file.bpl" >"$folder/formulas"
    for _ in 1 2 3; do { time formulas "$folder/file.bpl" >/dev/null; } 2>&1; done >"$folder/times"
    awk -v name="$(basename "$example")" '
        FILENAME ~ /labels$/ { all += ($1 in bytes) ? 0 : $2; bytes[$1] = $2; next }
        FILENAME ~ /formulas$/ { if ($1 == "vc") { of = $2; count++ } size[count] += length($0) + 1; names[count] = of; next }
        { it = ($1 + $2) * 1000; if (ms == "" || it < ms) ms = it }
        END { for (i = 1; i <= count; i++) { it = size[i] / bytes[names[i]]; if (i == 1 || it < least) least = it; if (it > most) most = it }
            printf "%-13s %10d %7d %8d %6.2f %6.2f %6.1f\n", name, length(bytes), all, count, least, most, ms / count }' \
        "$folder/labels" "$folder/formulas" "$folder/times"
done

write_procedure() { # KIND LENGTH
    awk -v kind="$1" -v n="$2" 'BEGIN {
        label = "{:msg \"1:1 1:1 false\"} "
        print "procedure go() {\nvar x: int;\nvar a: [int]int;"
        if (kind == "assigns") for (i = 0; i < n; i++) print "x := (x + 1);"
        if (kind == "asserts") for (i = 0; i < n; i++) print "assert {:msg \"2:1 2:1 false\"} (x < 3);"
        if (kind == "updates") for (i = 0; i < n; i++) print "a[x] := 1;"
        if (kind == "blocks") for (i = 0; i < n; i++) print "if ((x < 3)) {\nx := 1;\n} else {\n}"
        if (kind == "locals") { for (i = 0; i < n; i++) print "var x" i ": int;"
            for (i = 0; i < n; i++) print "if ((x < 3)) {\nx" i " := 1;\n} else {\n}" }
        if (kind == "nested") { for (i = 0; i < 200; i++) print "var x" i ": int;"
            for (i = 0; i < n; i++) print "if ((x < 3)) {"
            for (i = 0; i < 200; i++) print "x" i " := 1;"
            for (i = 0; i < n; i++) print "} else {\n}" }
        print "assert " label "(x < 3);\n}" }' >"$folder/procedure"
    { echo "$prelude"; cat "$folder/procedure"; } >"$folder/file.bpl"
}

measure() { # KIND LENGTH
    local least= memory= took bytes formula
    write_procedure "$1" "$2"
    for _ in 1 2 3; do
        /usr/bin/env time -o "$folder/time" -f '%U %S %M' "$program" vc "$folder/file.bpl" go 1:1 1:1 false >"$folder/formula"
        took=$(awk '{ print int(($1 + $2) * 1000 + 0.5) }' "$folder/time")
        memory=$(awk '{ print int($3 / 1024) }' "$folder/time")
        if [ -z "$least" ] || [ "$took" -lt "$least" ]; then least=$took; fi
    done
    bytes=$(wc -c <"$folder/procedure") formula=$(wc -c <"$folder/formula")
    printf '%-9s %7d %10d %10d %9s %7d %6d\n' "$1" "$2" "$bytes" "$formula" "$(awk "BEGIN { printf \"%.2f\", $formula / $bytes }")" "$least" "$memory"
}

printf '\n%-9s %7s %10s %10s %9s %7s %6s\n' kind length procedure formula 'per byte' ms MB
for kind in assigns asserts updates blocks locals nested; do
    case $kind in
        assigns | updates) lengths='125000 250000 500000 1000000' ;;
        asserts | blocks) lengths='50000 100000 200000 400000' ;;
        locals) lengths='8000 16000 32000 64000' ;;
        nested) lengths='250 500 1000 2000' ;;
    esac
    for length in $lengths; do measure "$kind" "$length"; done
done
