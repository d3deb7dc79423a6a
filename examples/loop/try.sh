#!/usr/bin/env bash
# Runs the controller of this folder in its closed loop, with the noisy threads and without, and compares: its two traces are
# equal, byte for byte, and what it loads and stores is loop.txt, of which motor.svg is the picture. LOOP_CLI names the program,
# if it isn't the built one of crates/loop_cli.
set -eu
cd "$(dirname "$(readlink -f "${BASH_SOURCE[0]}")")/../.."
program=${LOOP_CLI:-crates/loop_cli/out/loop_cli}
if [ ! -x "$program" ]; then
    echo "try.sh: $program isn't built: (cd crates/loop_cli && rt run)" >&2
    exit 2
fi
work=$(mktemp -d)
trap 'rm -rf "$work"' EXIT

for setup in motor quiet; do
    "$program" "examples/loop/$setup.toml" --plants examples/loop/plants.txt --thread 0 --every 100 --cycles 160000 \
        > "$work/$setup.trace"
done
cmp "$work/motor.trace" "$work/quiet.trace"
examples/loop/loop_trace.py < "$work/motor.trace" > "$work/loop.txt"
cmp "$work/loop.txt" examples/loop/loop.txt
examples/device/plot.py < "$work/loop.txt" | cmp - examples/loop/motor.svg
echo "the traces are equal, and the loop settles as in loop.txt"
