# Read by bin/remduska in an installed copy, in place of tools/crates.sh: the programs stand beside the scripts, and no source is looked
# for. MANIFEST says whether they were proved.
. "$top/tools/common.sh"
pages=${top%/*/*}/share/remduska own=remduska

# Sets `said` to what MANIFEST says of this copy in a line that begins with a word.
find_said() { # WORD
    local mark word
    while read -r mark word said && [ "$mark" = "#" ]; do [ "$word" != "$1" ] || return 0; done <"$top/MANIFEST"
    said=unknown
}

choose_program() { # PROGRAM
    choose_named "$1" || return
    [ -z "$chosen" ] || return 0
    chosen=$top/programs/$1
    [ -x "$chosen" ] || { say "$chosen cannot be started; install remduska again"; return 70; }
    find_said programs
    [ "$said" = proved ] || say "$1 was compiled and not proved"
}

# What has to be there before a script in Python begins. Where its folder cannot be written, what Python compiles of it
# is kept with the user's other caches.
begin_script() {
    has_python || return
    [[ -w $top/tools/verifying || -d $top/tools/verifying/__pycache__ ]] || export PYTHONPYCACHEPREFIX="${XDG_CACHE_HOME:-${HOME:-/tmp}/.cache}/remduska/bytecode"
}

# The programs of this copy, in a line, or in one for each that a variable names.
tell_programs() {
    local name
    find_said programs
    echo "programs: $said"
    for name in "${programs[@]}"; do tell_named "$name"; done
    return 0
}

tell_kit() { find_said kit; echo "$said"; }

tell_commit() { find_said commit; echo "commit $said"; }

begin_build() { say "only a checkout builds the programs"; return 1; }
