# Read by tools/crates.sh in a checkout, and by tools/installed.sh in an installed copy. Of these `top` is the folder that has tools, `pages`
# the one that has docs and examples, and `own` how the script is called.
programs=()
declare -A variables    # the variable that names another file for a program
while read -r name variable; do
    case $name in '' | '#'*) ;; *) programs+=("$name") variables[$name]=$variable ;; esac
done <"$top/tools/programs.txt"

say() { echo "remduska: $*" >&2; }

has_python() {
    command -v python3 >/dev/null || { say "python3 is not on the path; Debian has it as the package python3"; return 1; }
}

is_program() { # NAME
    [ -n "${variables[$1]-}" ]
}

# Tells which file a variable names for a program; the status is 1 where none does.
tell_named() { # PROGRAM
    local variable=${variables[$1]} more=
    local file=${!variable-}
    [ -n "$file" ] || return
    [[ -x $file && ! -d $file ]] || more=", and which is no program"
    echo "$1: $file, which $variable names$more"
}

# Sets `chosen` to the file that a variable names for a program, where one does. The status is 70 where that is no program.
choose_named() { # PROGRAM
    local variable=${variables[$1]}
    chosen=${!variable-}
    [ -n "$chosen" ] || return 0
    [[ -x $chosen && ! -d $chosen ]] || { say "$variable names $chosen, which is no program"; return 70; }
    [[ $chosen = /* ]] || chosen=$PWD/$chosen
}
