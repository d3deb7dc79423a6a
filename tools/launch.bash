# shellcheck shell=bash disable=SC2034
# The common part of ./flexpret and ./flexpret-view. Each sources this file, and calls `launches` first.

# The status if the result isn't the program's.
readonly NOT_BUILT=125

# launches SCRIPT CRATE VARIABLE: sets the places of the crate's program and of its records, from the script's full name. The variable may
# name another program.
launches() {
    self=$1 script=${1##*/} top=${1%/*} crate=$2 variable=$3
    out=$top/crates/$crate/out
    program=$out/$crate
    names=$out/$crate.names times=$out/$crate.times
    quiet='' used='' given=() said=''
    unproved='' model='' status=0
}

# Prints a line of the script on standard error.
say() {
    printf '%s: %s\n' "$script" "$*" >&2 2>/dev/null
}

# Ends the script with a line.
stop() {
    say "$2"
    exit "$1"
}

# run_python FILE ARGUMENT..: runs a file that only needs Python's standard library.
run_python() {
    local python=/usr/bin/python3
    [ -x $python ] || python=python3
    FLEXPRET_QUIET=$quiet "$python" -S "$@"
}

# helper COMMAND ARGUMENT..: runs a part of the scripts that is written in Python.
helper() {
    run_python "$top/tools/fp_launch" "$script" "$crate" "$@"
}

# Prints the Python that runs the tools: the first one with all of their packages, else the first one that is new enough.
tools_python() {
    local python found=''
    for python in python3 /usr/bin/python3; do
        "$python" -c 'import importlib.util, sys
sys.exit(4 if sys.version_info < (3, 11) else 0 if all(map(importlib.util.find_spec, ("elftools", "jsonschema"))) else 3)' 2>/dev/null
        case $? in
        0)
            found=$python
            break
            ;;
        3) found=${found:-$python} ;;
        esac
    done
    echo "${found:-python3}"
}

# tool NAME ARGUMENT..: calls a tool of tools/ with this program, for those that run one. A tool without its packages ends with NOT_BUILT.
tool() {
    [ -x "$top/tools/$1" ] || stop "$NOT_BUILT" "tools/$1 isn't there"
    env "$variable=$program" FLEXPRET_QUIET="$quiet" FLEXPRET_NOT_STARTED=$NOT_BUILT "$(tools_python)" "$top/tools/$1" "${@:2}"
}

# name_program FILE: the value of --use, once.
name_program() {
    [ -z "$used" ] || stop 2 '--use is given 2 times'
    [ -n "$1" ] || stop 2 '--use: FILE is missing, the program to be used'
    used=$1
}

# options ARGUMENT..: takes the script's options before the command, and --quiet also after it. The rest is `given`.
options() {
    while [ $# -gt 0 ]; do
        case $1 in
        --quiet) quiet=1 ;;
        --unproved) unproved=1 ;;
        --model) model=1 ;;
        --use)
            name_program "${2-}"
            shift
            ;;
        --use=*) name_program "${1#*=}" ;;
        --version) version ;;
        --help | -h | help) help ;;
        *) break ;;
        esac
        shift
    done
    local word
    for word in "$@"; do
        case $word in
        --quiet) quiet=1 ;;
        --help) help ;;
        *) given+=("$word") ;;
        esac
    done
}

# Prints the program's commit and kit, and ends the script.
version() {
    if [ -n "$model" ]; then
        echo "$script: the model in Python: nothing of its answers is proved"
        exit
    fi
    quiet=1
    choose_program
    if [ -n "$used" ]; then helper version "$program"; else helper version; fi
    exit
}

# The sizes and times of the files that `names` lists: the sources, their folders, the list of crates and the program.
list_times() {
    (cd "$top" && exec find -files0-from "$names" -maxdepth 0 -printf '%s %T@\n' 2>/dev/null)
}

# Whether the program was built from the current sources. If a size or time differs from the last call, the helper compares the checksums
# in the stamp of the program, and records the new times.
is_built() {
    [ -x "$program" ] || return
    [ ! -e "$top/installed" ] || return 0
    if [ -e "$names" ] && list_times | cmp -s - "$times"; then return; fi
    helper is-built
}

# Chooses the program that --use or the variable names, unless it is this script.
choose_program() {
    local named=${!variable-}
    if [ -n "$model" ]; then
        [ -z "$used$unproved" ] || stop 2 '--model is given with another way to the answer: --use or --unproved'
        [ -x "$top/tools/fp_model" ] || stop "$NOT_BUILT" "--model: tools/fp_model isn't there"
        used=$top/tools/fp_model
    fi
    if [ -z "$used" ] && [ -n "$named" ] && ! [ "$named" -ef "$self" ]; then used=$named; fi
    [ -z "$used" ] || use "$used"
}

# Builds the program, if there is none of the current sources. Wrong arguments build nothing.
need_program() {
    if [ -z "$used" ] && ! is_built; then
        [ ! -e "$top/installed" ] || stop "$NOT_BUILT" "$program isn't there: install it again"
        explain "$@"
        helper build || exit "$NOT_BUILT"
    fi
}

# use FILE: takes a program that was built elsewhere, and prints the commit of its sources.
use() {
    local line='' commit='no record says from which sources it was built' kit=''
    program=$(readlink -f -- "$1")
    if [ ! -f "$program" ] || [ ! -x "$program" ]; then stop "$NOT_BUILT" "$1 isn't a program that can be run"; fi
    if [ "$program" -ef "$top/tools/fp_model" ]; then
        [ -n "$quiet" ] || say 'nothing of this answer is proved: the model in Python gives it'
        export FLEXPRET_QUIET=1
        return
    fi
    if [ -r "$program.sources" ]; then
        while read -r line; do
            case $line in
            'kit '*) kit=${line#kit } ;;
            'commit '*) commit="built from commit ${line#commit }, by $kit" && break ;;
            esac
        done <"$program.sources"
    fi
    [ -n "$quiet" ] || say "using $1: $commit"
}

# run ARGUMENT..: runs the program, which ends with this script. Its standard error is at most one line, which `said` keeps.
run() {
    if [ -e /dev/fd/1 ]; then
        { said=$(exec setpriv --pdeathsig TERM -- "$program" "$@" 2>&1 >&3 3>&-); } 3>&1
    else
        said=$(exec setpriv --pdeathsig TERM -- "$program" "$@" 2>&1 >&-)
    fi
    status=$?
}

# Prints the standard error of the program.
pass_on() {
    [ -z "$said" ] || printf '%s\n' "$said" >&2 2>/dev/null
}

# explain ARGUMENT..: if an argument is wrong, prints it and ends with status 2.
explain() {
    helper explain "$@"
    [ $? -ne 2 ] || exit 2
}
