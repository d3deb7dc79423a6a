#!/usr/bin/env bash
# Runs each command that docs/FLEXPRET.md and rtl/README.md show, in a folder of its own, and
# compares what it writes with the page. The gate does so too. FLEXPRET names the program, if it isn't
# ../flexpret, and FLEXPRET_VIEW the view.
set -u
here=$(dirname "$(readlink -f "${BASH_SOURCE[0]}")")
top=$(dirname "$here")
program=$(readlink -f "${FLEXPRET:-$top/flexpret}")

work=$(mktemp -d)
trap 'rm -rf "$work"' EXIT

# shellcheck source=examples/shown.bash
. "$top/examples/shown.bash"
FLEXPRET=$(as_script "$program" "$work/script" "$top")
export FLEXPRET
mkdir -p "$work/folder/rtl"
cd "$work/folder" || exit 1
ln -s "$FLEXPRET" flexpret
ln -s "$top/examples" "$top/tools" .
cp "$here"/{Makefile,flexpret.sv,driver.cpp,state.vlt,simulate} rtl

read_page "$top/docs/FLEXPRET.md"
read_page "$here/README.md"

# shellcheck disable=SC2154
exit "$failed"
