# Read by ./remduska, tools/program and tools/build: which programs there are, whether each was built from the sources of the crates that
# it stands on, and which file is started.
#
# To look at all sources takes a while, so what was chosen is noted in tools/out/PROGRAM, with the time before the look and all that was
# looked at. A later call only asks the system whether any of it was written since, put in place, or taken away: the times of a file
# that say so cannot be set. Where something was, the sources are read, and a program counts as today's where they are the ones that it
# was made from: by a sum over their text, or, where it is new, since none of them was written or put in place after it.
#
# It takes some care to begin few processes, since each call waits for them. Who reads this sets `top` to the folder of the repository.
. "$top/tools/common.sh"
for name in "${!programs[@]}"; do [ -d "$top/crates/${programs[name]}" ] || unset "programs[name]"; done
pages=$top own=./remduska
noted=$top/tools/out
slack=2     # seconds by which the time of a file may be behind the clock

# Sets `proved` and `unproved` to where the files of a program are.
name_files() { # PROGRAM
    proved=$top/crates/$1/out/$1 unproved=$top/crates/$1/out/unproved/$1-unproved
}

# What went wrong, by the messages of a command.
reason() { # FILE
    local why
    why=$(grep -m 1 -e 'No space left' -e '^error' "$1" || grep -v '^run=' "$1" | tail -n 1)
    why=${why#checked: no-answer: }
    echo "${why:-it said nothing; is the disk full?}"
}

# The crates that a program stands on, and itself. Without Python it is all crates, so a program that was built starts there as well.
crates_of() { # PROGRAM
    "$top/tools/crates.py" needed "$1" 2>/dev/null || ls "$top/crates"
}

# The sources that a program is made of, a line each, by their names below the top.
sources_of() { # PROGRAM
    local crates
    mapfile -t crates < <(crates_of "$1")
    cd "$top" && find "${crates[@]/#/crates/}" crates.txt -name out -prune -o \( -name '*.rt' -o -name '*.antt' -o -name crates.txt \) -print | sort
}

# Of the files on the input, each with a zero byte behind it, none was written or put in place since a time, and none is gone.
are_untouched_since() { # SECONDS
    local found since=(\( -newermt "@$1" -o -newerct "@$1" \) -print -quit)
    if ! found=$({ cd "$top" && find -files0-from - "${since[@]}"; } 2>&1) && [[ $found == *-files0-from* ]]; then    # before findutils 4.9
        found=$({ cd "$top" && xargs -0 bash -c 'find "${@:10}" -maxdepth 0 "${@:1:9}"' - "${since[@]}"; } 2>&1)
    fi && [ -z "$found" ]
}

# Writes lines and the input to a file, whole or not at all. Where that cannot be it is done without.
note() { # FILE LINE..
    { mkdir -p "$noted" && { printf '%s\n' "${@:2}"; cat; } >"$1.$$" && mv "$1.$$" "$1" || rm -f "$1.$$"; } 2>/dev/null
    return 0
}

# A program was made from these sources, as they are now. The sums of what is found to be so are noted.
is_made_of() { # FILE SOURCES
    local known=$noted/${1##*/}.sums program sources noted_program="" noted_sources=""
    [ -x "$1" ] || return
    program=$(sha256sum <"$1")
    sources=$(cd "$top" && xargs -d '\n' sha256sum <<<"$2" | sha256sum)
    { read -r noted_program && read -r noted_sources; } 2>/dev/null <"$known"
    if [ "$program" = "$noted_program" ]; then
        [ "$sources" = "$noted_sources" ]
    else
        are_untouched_since "$(stat -c %.9Y "$1")" < <(tr '\n' '\0' <<<"${2}") && note "$known" "$program" "$sources" </dev/null
    fi
}

# A file of a program is there, and was made from the sources as they are now.
is_current() { # PROGRAM FILE
    [ -x "$2" ] && is_made_of "$2" "$(sources_of "$1")"
}

# Sets `chosen` to the file that was chosen before, if nothing that it was chosen by has changed.
choose_noted() { # PROGRAM
    local since name
    { read -r since && read -r name && are_untouched_since "$since"; } 2>/dev/null <"$noted/$1" && chosen=$top/$name
}

# Sets `chosen` to the proved file of a program, or else to the unproved one, if it is current, and notes it with what it was chosen by:
# the sources, the files, and the folders in which the proved one may appear.
choose_current() { # PROGRAM
    local since=$((EPOCHSECONDS - slack)) sources proved unproved
    name_files "$1"
    sources=$(sources_of "$1")
    for chosen in "$proved" "$unproved"; do
        is_made_of "$chosen" "$sources" || continue
        (
            cd "$top" && echo "$sources"
            for file in "$chosen" "$proved" "${proved%/*}" "${proved%/*/*}"; do [ ! -e "$file" ] || echo "${file#"$top/"}"; done
        ) | tr '\n' '\0' | note "$noted/$1" "$since" "${chosen#"$top/"}"
        return
    done
    return 1
}

# Sets `chosen` to the file of a program that is started: the one that is named, the proved one, or the unproved one, which is compiled
# where it is not current.
choose_program() { # PROGRAM
    local compiler status proved unproved
    choose_named "$1" || return
    [ -z "$chosen" ] || return 0
    name_files "$1"
    if choose_noted "$1" || choose_current "$1"; then
        [[ $chosen = "$proved" || -n ${REMDUSKA_QUIET-} ]] || say "$1 is compiled from today's sources and not proved"
        return 0
    fi
    has_python || return 70
    chosen=$unproved
    trap 'kill "$compiler" 2>/dev/null; wait "$compiler"; exit 130' INT TERM HUP
    "$top/tools/build-unproved" "$1" "$chosen" &
    compiler=$!
    wait "$compiler"
    status=$?
    trap - INT TERM HUP
    [ "$status" -ne 0 ] || choose_current "$1" || chosen=$unproved      # where a source was edited meanwhile
    return "$status"
}

# What has to be there before a script in Python begins.
begin_script() { has_python; }

begin_build() { :; }

# What is told of the programs by --version: nothing is compiled for it.
tell_programs() {
    local name proved unproved
    for name in "${programs[@]}"; do
        name_files "$name"
        if tell_named "$name"; then
            continue
        elif ! choose_noted "$name" && ! choose_current "$name"; then
            echo "$name: not built from today's sources"
        elif [ "$chosen" = "$proved" ]; then
            echo "$name: proved"
        else
            echo "$name: compiled from today's sources and not proved"
        fi
    done
}

tell_kit() { ! command -v rt >/dev/null || rt version; }

tell_commit() {
    local commit
    [ -e "$top/.git" ] && commit=$(git -C "$top" --no-optional-locks describe --always --dirty=+changes 2>/dev/null) || return 0
    echo "commit $commit"
}
