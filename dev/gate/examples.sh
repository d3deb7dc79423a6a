#!/usr/bin/env bash
# Checks that the copies of the examples that the gate's rows read are the same bytes. A program in the gate can only read the data
# of its own crate, and no link may be among them.
set -eu
cd "$(dirname "${BASH_SOURCE[0]}")/../.."
differ=0
for file in examples/{calls,sum}.* examples/drive.{fpx,s,toml,trace} examples/c/pid.* examples/device/ramp.*; do
    cmp "$file" "crates/test_commands/data/${file##*/}" || differ=1
done
cmp examples/drive.toml crates/test_units/data/drive.toml || differ=1
cmp examples/drive.fpx crates/flexpret_view/data/drive.fpx || differ=1
for file in examples/device/loop.toml examples/c/pid.fpx; do
    cmp "$file" "crates/device_cli/data/$file" || differ=1
done
cmp examples/device/loop.txt crates/device_cli/stdout || differ=1
exit "$differ"
