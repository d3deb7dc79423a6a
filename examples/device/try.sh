#!/usr/bin/env bash
# Runs each command that docs/dev/DEVICES.md and docs/PLANTS.md show, at the top of the repository, and compares what it writes with the page; the
# files that a command makes are compared with those of the repository, which are left as they are. What the page shows of
# sources has to stand in them. With --built the commands that call `rt` are left out, so that the programs have to be built
# already: so does the gate. FLEXPRET names the program of flexpret_cli, if it isn't flexpret.
set -u
here=$(dirname "$(readlink -f "${BASH_SOURCE[0]}")")
top=$(readlink -f "$here/../..")
program=$(readlink -f "${FLEXPRET:-$top/flexpret}")
built=${1:-}

. "$top/examples/shown.bash"

# The folder of the calls: links to the repository's, but for the example's own folder.
work=$(mktemp -d)
trap 'rm -rf "$work"' EXIT
mkdir -p "$work/top/examples"
ln -s "$top/crates" "$top/crates.txt" "$work/top"
ln -s "$top/tools" "$work/top"
ln -s "$top/examples/c" "$top/examples/loop" "$top/examples/plant" "$work/top/examples"
ln -s "$(as_script "$program" "$work/script" "$top")" "$work/top/flexpret"
cp -R "$here" "$work/top/examples/device"
cd "$work/top" || exit 1

# Runs a command, and compares what it writes and the file that it makes.
try_command() {
    local made
    if [ "$built" = --built ] && [[ $1 =~ rt\ (check|try|run) ]]; then
        return 0
    fi
    if [[ $1 =~ (^cc|/fp_plant)\  ]] && ! command -v cc >/dev/null; then
        echo "not tried, since cc isn't installed (Debian: gcc): $1"
        return 0
    fi
    made=$(sed -n 's/.* > \(examples\/device\/[^ ]*\)$/\1/p' <<<"$1")
    [ -z "$made" ] || rm -f "$made"
    as_shown "$1"
    [ -z "$made" ] || cmp -s "$made" "$top/$made" || fail "$made, by: $1"
}

# Whether a block of code stands in one of the crates' sources.
try_code() {
    local file
    for file in "$top"/crates/{fp_ports/src/ramp,device_cli/src/main,device_cli/src/control_loop,example_plants/src/body}.rt; do
        [[ $(<"$file") != *"$code"* ]] || return 0
    done
    fail "the page shows other code: ${code%%$'\n'*}"
}

# Gathers the blocks of Rust.
is_rust='' code=''
other_line() {
    case $is_rust$1 in
    '```rust') is_rust=yes: code= ;;
    'yes:```') is_rust= && try_code ;;
    yes:*) code+=${code:+$'\n'}$1 ;;
    esac
}
read_page "$top/docs/dev/DEVICES.md"
read_page "$top/docs/PLANTS.md"
exit $failed
