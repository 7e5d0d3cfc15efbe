#!/usr/bin/env bash
# What chosen names cost. The kit's hash has no key, so a file can have names that all stand in one row of a table that goes by it,
# and so could it be with SipHash, if its key were known. This finds such names of seven bytes, for the kit's hash and, fewer, for
# SipHash with a key of zeros, and translates files of fields and of variables with them and with other names, replays texts of
# Boogie with variables of these names, and cuts texts with locals and with procedures of these names. Of locals only names that
# begin with an `a` are in a table, as the other names here do, and the first quarter of those for the kit's hash.
# Each line has the kind of names, the bytes, and the processor seconds of one call with other names, with those for the kit's hash,
# and with those for SipHash, of which there are enough for the shortest texts. To find the names takes some five minutes on four
# cores, and needs `cc`.
#
# Give the program, if it is not the proved one: bench/names.sh PROGRAM
set -eu
case ${1:-} in -h | --help) exec sed -n '2,/^[^#]/s/^# \{0,1\}//p' "$0" ;; esac
top=$(dirname "$(readlink -f "$0")")/..
program=${1:-$top/crates/remduska/out/remduska}
[ $# -gt 0 ] || "$top/remduska" --build
folder=$(mktemp -d)
trap 'rm -r "$folder"' EXIT

# The hash goes on byte by byte from the length. A table of up to 2^14 groups begins at the group of its lowest bits, and compares
# keys where the highest eight are equal too.
cc -O3 -x c - -o "$folder/find" <<'END'
#include <stdint.h>
#include <stdio.h>
#include <stdlib.h>
#include <string.h>
static const uint64_t factor = 0x9e3779b97f4a7c15;
static const char *letters = "abcdefghijklmnopqrstuvwxyzABCDEFGHIJKLMNOPQRSTUVWXYZ_$0123456789'";
static long left;
static char name[8];
static uint64_t fold(uint64_t a, uint64_t b) {
    unsigned __int128 product = (unsigned __int128)a * b;
    return (uint64_t)product ^ (uint64_t)(product >> 64);
}
static void find(uint64_t state, int at, int from, int to) {
    for (int i = from; i < to && left; i++) {
        uint64_t next = fold(state ^ (uint64_t)letters[i] * 0x010101, factor ^ 2);
        name[at] = letters[i];
        if (at < 6) {
            find(next, at + 1, 0, 65);
        } else if (((uint32_t)(next ^ next >> 32) & 0xff003fff) == 0x41000000) {
            puts(name);
            left--;
        }
    }
}
int main(int count, char **words) {
    left = atol(words[1]);
    find(fold(0x243f6a8885a308d3 ^ 7, factor ^ 16), 0, atoi(words[2]), atoi(words[3]));
}
END

# The same for SipHash, which takes the length as eight bytes before those of the name, for a table of up to 2^11 groups.
cc -O3 -x c - -o "$folder/find-sip" <<'END'
#include <stdint.h>
#include <stdio.h>
#include <stdlib.h>
static const char *letters = "abcdefghijklmnopqrstuvwxyzABCDEFGHIJKLMNOPQRSTUVWXYZ_$0123456789'";
typedef struct { uint64_t a, b, c, d; } state;
static uint64_t turn(uint64_t x, int n) { return x << n | x >> (64 - n); }
static state mix(state s) {
    s.a += s.b; s.c += s.d; s.b = turn(s.b, 13) ^ s.a; s.d = turn(s.d, 16) ^ s.c; s.a = turn(s.a, 32);
    s.c += s.b; s.a += s.d; s.b = turn(s.b, 17) ^ s.c; s.d = turn(s.d, 21) ^ s.a; s.c = turn(s.c, 32);
    return s;
}
static state with_word(state s, uint64_t word) { s.d ^= word; s = mix(s); s.a ^= word; return s; }
int main(int count, char **words) {
    long left = atol(words[1]);
    state begin = {0x736f6d6570736575, 0x646f72616e646f6d, 0x6c7967656e657261, 0x7465646279746573};
    begin = with_word(begin, 7);
    for (uint64_t number = 0; left; number++) {
        char name[8] = "a";
        uint64_t rest = number, word = 15ull << 56 | 'a';
        for (int i = 1; i < 7; i++, rest /= 65) {
            name[i] = letters[rest % 65];
            word |= (uint64_t)(unsigned char)name[i] << 8 * i;
        }
        state s = with_word(begin, word);
        s.c ^= 0xff;
        s = mix(mix(mix(s)));
        uint64_t hash = s.a ^ s.b ^ s.c ^ s.d;
        if (((uint32_t)(hash ^ hash >> 32) & 0xff0007ff) == 0x41000000) {
            puts(name);
            left--;
        }
    }
}
END
"$folder/find-sip" 8200 >"$folder/sip" &
for from in 0 13 26 39; do "$folder/find" 16500 "$from" "$((from + 13))" >"$folder/found$from" & done
wait
cat "$folder"/found* >"$folder/chosen"
seq -f 'a%06.0f' 66000 >"$folder/other"
echo 'boogie run go' >"$folder/run"

prelude() {
    sed '/^procedure/,$d' "$top/examples/first.bpl"
}

write_text() { # KIND NAMES BYTES
    case $1 in
        fields) head -n "$(($3 / 18))" "$2" | sed 's/.*/field &:Int/' ;;
        Boogie | locals) prelude; printf 'procedure go() {\n'
            head -n "$((($3 - 1000) / 17))" "$2" | sed 's/.*/var &:int;/'; printf '}' ;;
        procedures) head -n "$((($3 - 1000) / 37))" "$2" >"$folder/called"; prelude; sed 's/.*/procedure &();/' "$folder/called"
            printf 'procedure go() {\n'; sed 's/.*/call &();/' "$folder/called"; printf '}' ;;
        variables) printf 'method m() {\n'; head -n "$((($3 - 14) / 16))" "$2" | sed 's/.*/var &:Int/'; printf '}' ;;
    esac >"$folder/text"
}

seconds() { # NAMES
    local TIMEFORMAT='%U'
    local call=(translate "$folder/text")
    case $kind in
        Boogie) call=(replay "$folder/text" "$folder/run") ;;
        locals | procedures) call=(cut "$folder/text") ;;
    esac
    write_text "$kind" "$1" "$bytes"
    { time "$program" "${call[@]}" >/dev/null; } 2>&1
}

printf '%-10s %9s %9s %9s %9s\n' names bytes other chosen SipHash
for kind in fields variables Boogie locals procedures; do
    for bytes in 131072 262144 524288 1048576; do
        sip=
        [ "$bytes" -gt 131072 ] || sip=$(seconds "$folder/sip")
        printf '%-10s %9d %9s %9s %9s\n' "$kind" "$bytes" "$(seconds "$folder/other")" "$(seconds "$folder/chosen")" "$sip"
    done
done
