#!/usr/bin/env bash
# Runs each command that the pages SLOTS, EXCHANGE, INTERFACE, TROUBLE and CASE show, in a folder of its own, and compares what it
# writes with the page: with the program, and again with the script ./flexpret around it. The gate does so too. FLEXPRET names the
# program, if it isn't the one that ../flexpret leaves.
set -u
here=$(dirname "$(readlink -f "${BASH_SOURCE[0]}")")
top=$(dirname "$here")
program=$(readlink -f "${FLEXPRET:-$top/crates/flexpret_cli/out/flexpret_cli}")

work=$(mktemp -d)
trap 'rm -rf "$work"' EXIT

# shellcheck source=examples/shown.bash
. "$here/shown.bash"
script_around "$program" "$work/script" "$top"

# What comes of a compiler is left out where that isn't the one of the repository's executable.
other=
cp -R "$here/c" "$work/c"
if ! make -s -B -C "$work/c" pid.elf 2>/dev/null || ! cmp -s "$work/c/pid.elf" "$here/c/pid.elf"; then
    echo "gcc for RISC-V isn't installed, or makes another pid.elf than the repository's: CASE and late/ aren't tried"
    other=1
fi

try_command() {
    if [ -z "$other" ] || [[ $1 != *late* && $page != CASE ]]; then as_shown "$1"; fi
}

for FLEXPRET in "$program" "$work/script/flexpret"; do
    export FLEXPRET
    folder=$(mktemp -d -p "$work")
    mkdir "$folder/examples"
    cp -R "$here/c" "$here/current" "$here"/drive.* "$folder/examples"
    ln -s "$top/tools" "$folder/tools"
    ln -s "$FLEXPRET" "$folder/flexpret"
    cd "$folder" || exit 1
    for page in SLOTS EXCHANGE INTERFACE TROUBLE CASE; do
        read_page "$top/docs/$page.md"
    done
done
exit "$failed"
