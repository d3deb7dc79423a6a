# shellcheck shell=bash disable=SC2034,SC2154
# What the scripts share that run the commands of a page and compare: bash, to be sourced, with a folder of one's own in `work`.
#
# A page has a command behind four spaces and `$ `, and under it the lines that it writes, `..` for lines left out. A command goes on
# behind a `\` at the end of a line, and up to END behind <<'END'.

failed=0

# Says what isn't as it is shown.
fail() {
    echo "differs: $1"
    failed=1
}

# Whether the lines of a file stand in another, in their order; where no `..` is among them, nothing else may.
stands_in() {
    awk -v shown="$1" '
        BEGIN { at = n = 0; while ((getline line < shown) > 0) if (line == "..") open = 1; else want[n++] = line }
        at < n && $0 == want[at] { at++; next }
        !open { extra = 1 }
        END { exit at < n || extra }' "$2"
}

# Runs a command, and compares what it writes with the lines that are shown. It is told by its first line.
as_shown() {
    local first=${1%%$'\n'*} status
    bash -c "$1" </dev/null >"$work/written" 2>"$work/errors"
    status=$?
    if [ $status -eq 0 ] && stands_in "$work/shown" "$work/written"; then
        echo "as shown: $first"
    else
        fail "$first (status $status)"
        head -20 "$work/written" "$work/errors"
    fi
}

# Goes over a page. Each command is given to `try_command`, with the lines that are shown in $work/shown; each line of a block of code,
# and of the text, to `other_line`, which ends the page where it fails.
read_page() {
    local line command='' open=''
    while IFS= read -r line; do
        case $open$line in
        code:*)
            [ "$line" != '```' ] || open=
            other_line "$line" || break
            ;;
        here:*)
            command+=$'\n'${line#'    '}
            [ "$line" != '    END' ] || open=
            ;;
        more:*)
            command+=$'\n'${line#'    '}
            [[ $line == *\\ ]] || open=
            ;;
        '    $ '*)
            [ -z "$command" ] || try_command "$command"
            command=${line#'    $ '}
            : >"$work/shown"
            case $line in *"<<'END'") open=here: ;; *\\) open=more: ;; esac
            ;;
        '    '*) [ -z "$command" ] || echo "${line#'    '}" >>"$work/shown" ;;
        *)
            [ -z "$command" ] || try_command "$command"
            command=
            [[ $line != '```'* ]] || open=code:
            other_line "$line" || break
            ;;
        esac
    done <"$1"
    [ -z "$command" ] || try_command "$command"
}

# script_around PROGRAM FOLDER TOP: makes a folder with the script ./flexpret around a program that is built, as tools call it by default.
script_around() {
    mkdir -p "$2/crates/flexpret_cli/out"
    ln -s "$3/tools" "$2/tools"
    ln -s "$(readlink -f "$1")" "$2/crates/flexpret_cli/out/flexpret_cli"
    cp "$3/flexpret" "$2"
    touch "$2/installed"
}

# as_script PROGRAM FOLDER TOP: the script ./flexpret around a program that is built, as by script_around; a script stays as it is.
as_script() {
    local program
    program=$(readlink -f "$1")
    if [[ $(head -c 4 "$program" | tail -c 3) == ELF ]]; then
        script_around "$program" "$2" "$3"
        program=$2/flexpret
    fi
    echo "$program"
}

# What a script does that wants no more than the commands.
try_command() { as_shown "$1"; }
other_line() { :; }
