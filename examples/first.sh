#!/usr/bin/env bash
# Runs each command that docs/FIRST.md shows, in a folder of its own, and compares what it writes with the page: with the program,
# and again with the script ./flexpret around it. The gate does so too. FLEXPRET names the program, if it isn't ../flexpret.
set -u
here=$(dirname "$(readlink -f "${BASH_SOURCE[0]}")")
program=$(readlink -f "${FLEXPRET:-$here/../flexpret}")

work=$(mktemp -d)
trap 'rm -rf "$work"' EXIT
. "$here/shown.bash"
for flexpret in "$program" "$(as_script "$program" "$work/script" "$(dirname "$here")")"; do
    folder=$(mktemp -d -p "$work")
    ln -s "$flexpret" "$folder/flexpret"
    cd "$folder" || exit 1
    read_page "$here/../docs/FIRST.md"
done
exit $failed
