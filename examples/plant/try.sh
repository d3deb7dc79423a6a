#!/usr/bin/env bash
# Runs the motors of this folder, in C and in Python, as plants of tools/fp_plant, and compares: their traces are the one of the
# proved motor of crates/example_plants, and the proved loop gives it again with the recorded words. LOOP_CLI names the program, if
# it isn't the built one of crates/loop_cli.
set -eu
cd "$(dirname "$(readlink -f "${BASH_SOURCE[0]}")")/../.."
program=${LOOP_CLI:-crates/loop_cli/out/loop_cli}
if [ ! -x "$program" ]; then
    echo "try.sh: $program isn't built: (cd crates/loop_cli && rt run)" >&2
    exit 2
fi
work=$(mktemp -d)
trap 'rm -rf "$work"' EXIT

echo '0 motor 1000' >"$work/plants.txt"
"$program" examples/loop/motor.toml --plants "$work/plants.txt" --thread 0 --every 100 --cycles 160000 \
    >"$work/proved.trace"

# try PLANT: the command of a plant.
try() {
    tools/fp_plant examples/loop/motor.toml --thread 0 --every 100 --cycles 160000 --check -o "$work/a.trace" -- "$@"
    cmp "$work/a.trace" "$work/proved.trace"
    echo "holds: the trace with ${1##*/} ${2-} is the one with the proved motor"
}

cc -O2 -o "$work/motor" examples/plant/motor.c
try "$work/motor"
try python3 examples/plant/motor.py
