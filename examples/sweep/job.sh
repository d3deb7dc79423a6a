#!/usr/bin/env bash
# job.sh NAME: writes the answer of `bound` for the period of a setup's loop, and a hash of T0's trace, to results/NAME.txt. What is
# done stays. The period is a section of period.fpx, by the same setup.
set -eu -o pipefail
cd "$(dirname "$0")"
setup=setups/$1.toml
result=results/$1.txt
[ ! -e "$result" ] || exit 0
mkdir -p results
sed 's/"sum.fpx"/"period.fpx"/' "$setup" >"$result.toml"
bound=$(./flexpret bound "$result.toml" --thread 0 --from 0x08 --to 0x40)
rm "$result.toml"
fold=$(./flexpret run "$setup" --thread 0 --cycles 10000 | sha256sum | cut -c 1-16)
printf '%s\n' "$bound" "$fold" >"$result.part"
mv "$result.part" "$result"
