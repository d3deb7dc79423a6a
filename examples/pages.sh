#!/usr/bin/env bash
# Runs the commands that README.md, the pages of docs/ and model/README.md show, in a folder of its own, and compares what they
# write with the page or with a stored file. A line with a command that isn't run here is a difference too. FLEXPRET and
# FLEXPRET_VIEW name the programs, if they aren't those that ../flexpret and ../flexpret-view leave; these scripts are called in
# any case. The gate does so too. The other pages have scripts of their own.
# shellcheck disable=SC2016,SC2154,SC2317
set -u
here=$(dirname "$(readlink -f "${BASH_SOURCE[0]}")")
top=$(dirname "$here")
[ -z "${FLEXPRET:-}" ] || FLEXPRET=$(readlink -f "$FLEXPRET")
export FLEXPRET=${FLEXPRET:-$top/crates/flexpret_cli/out/flexpret_cli}
if [ -n "${FLEXPRET_VIEW:-}" ]; then FLEXPRET_VIEW=$(readlink -f "$FLEXPRET_VIEW") && export FLEXPRET_VIEW; fi

work=$(mktemp -d)
trap 'rm -rf "$work"' EXIT
mkdir "$work/folder" "$work/folder/docs" "$work/bin"
ln -s "$FLEXPRET" "$work/bin/flexpret_cli"
export PATH=$work/bin:$PATH
cd "$work/folder" || exit 1
ln -s "$here" "$top/model" "$top/tools" .
ln -s "$top/flexpret" flexpret
ln -s "$top/flexpret-view" flexpret-view

# shellcheck source=examples/shown.bash
. "$here/shown.bash"

# The commands that a page shows without `$`, as its line has them: `run` until a page is found that has it, then `shown`.
declare -A known

# The script as one that has built the program: tools may call either.
script_around "$FLEXPRET" "$work/script" "$top"

# A command with the program, and again with the script if it calls a tool that asks for bounds.
by_either() {
    as_shown "$1"
    case $1 in *fp_budget* | *fp_visits* | *fp_report*) FLEXPRET=$work/script/flexpret as_shown "$1" ;; esac
}

try_command() {
    case $1 in
    tools/fp_report*)
        if python3 -c 'import jinja2' 2>/dev/null; then
            by_either "$1"
        else
            echo "not tried, since jinja2 isn't installed (Debian: python3-jinja2): $1"
        fi
        ;;
    *) by_either "$1" ;;
    esac
}

# Runs a command of a page that is shown without its output, and compares the output with a file.
as_in() {
    local file=$1 command=$2 status=${3:-0}
    known[$command]=run
    bash -c "$command" >"$work/written" 2>"$work/errors"
    if [ $? -eq "$status" ] && cmp -s "$work/written" "$file"; then
        echo "as shown: $command"
    else
        fail "$command"
        head -20 "$work/written" "$work/errors"
    fi
}

as_in "$here/drive.trace" './flexpret run examples/drive.toml --thread 0 --cycles 77'

# A source that is taken, and one that is refused, which leaves the image that was there.
assembled='./flexpret asm x.s -o x.fpx'
cp "$here/sum.s" x.s
as_in /dev/null "$assembled"
echo ' gt x99' >x.s
as_in /dev/null "$assembled" 5
cmp x.fpx "$here/sum.fpx" || fail "$assembled"
cp "$here/sum.s" x.s
as_in /dev/null "$assembled"

as_in /dev/null './flexpret-view turns examples/drive.toml --from 0 --to 80 --svg docs/drive.svg'
cmp docs/drive.svg "$top/docs/drive.svg" || fail 'docs/drive.svg'
as_in /dev/null './flexpret-view turns examples/drive.toml --from 0 --to 80 --vcd drive.vcd'
# The stored dump is of three cycles less.
head -n "$(($(wc -l <"$here/drive.vcd") - 3))" drive.vcd | cmp - <(head -n -3 "$here/drive.vcd") || fail 'drive.vcd'
as_in /dev/null './flexpret-view turns examples/drive.toml --from 0 --to 80 --konata drive.log'
PYTHONPATH=$top python3 -m dev.fuzz.kanata drive.log || fail 'drive.log'
as_in "$here/drive.trace" 'python3 -m model run examples/drive.toml --thread 0 --cycles 77'
as_in "$here/c/pid.bound" 'python3 -m model bound examples/c/pid.toml --thread 0 --from 0xb4 --to 0x1a4'

# A form of the view's arguments.
known['./flexpret-view turns SETUP --from CYCLE --to CYCLE [--konata FILE | --vcd FILE | --svg FILE | --state] [--progress UNTIL]']=run

# The setup with each key.
sed -n '/^```toml$/,/^```$/{/^```/d; p}' "$top/docs/FORMATS.md" >each-key.toml
./flexpret run each-key.toml --thread 0 --cycles 9 >"$work/written" || fail 'the setup with each key'

for page in README.md docs/{COMMANDS,BOUNDS,VIEW,FORMATS,PROGRAMMING,ASSUMPTIONS}.md model/README.md; do
    read_page "$top/$page"
    while IFS= read -r command; do
        [ -n "${known[$command]:-}" ] || fail "$page shows what isn't run here: $command"
        known[$command]=shown
    done < <(sed -n 's/^    \(\(\.\/flexpret\|flexpret_cli\|python3 -m model \).*\)/\1/p' "$top/$page")
done
cmp docs/marks.svg "$top/docs/marks.svg" || fail 'docs/marks.svg'
for command in "${!known[@]}"; do
    [ "${known[$command]}" = shown ] || fail "no page shows: $command"
done
exit "$failed"
