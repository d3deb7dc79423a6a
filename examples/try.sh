#!/usr/bin/env bash
# Runs each command that the setups of this folder show in their comments as `./flexpret .. > FILE`, on a copy of the
# folder, and compares what it writes with that file here; and so those that drive, sum and calls tell in other words. The
# gate does so too. FLEXPRET names the program, if it isn't ../flexpret.
set -u
here=$(dirname "$(readlink -f "${BASH_SOURCE[0]}")")
program=$(readlink -f "${FLEXPRET:-$here/../flexpret}")

work=$(mktemp -d)
trap 'rm -rf "$work"' EXIT
cp -R "$here" "$work/examples"
ln -s "$program" "$work/flexpret"
cd "$work" || exit 1

failed=0
# Compares a file that was made anew with that of the repository.
as_here() {
    if cmp -s "$1" "$here/${1#examples/}"; then
        echo "as shown: $2"
    else
        echo "differs: $2"
        failed=1
    fi
}

# The commands of a setup, in their order.
commands() { sed -n 's/^#  *\(\.\/flexpret .* > examples\/[^ ]*\)$/\1/p' "$1"; }

for setup in examples/*.toml; do
    while IFS= read -r command; do
        made=${command##* > }
        rm -f "$made"
        bash -c "$command"
        as_here "$made" "$command"
    done < <(commands "$setup")
done

# Makes a file of the folder by a command.
writes() {
    local made=examples/$1
    shift
    rm -f "$made"
    ./flexpret "$@" >"$made"
    as_here "$made" "./flexpret $*"
}
writes drive.fpx asm examples/drive.s
writes drive.trace run examples/drive.toml --thread 0 --cycles 77
writes sum.fpx asm examples/sum.s
writes sum.bound bound examples/sum.toml --thread 0 --from 0x10 --to 0x3c
writes sum.trace run examples/sum.toml --thread 0 --cycles 820
writes calls.fpx asm examples/calls.s
writes calls.bound calls examples/calls.toml --thread 0 --from 0x8 --to 0x18 --routines examples/calls.routines
writes calls.trace run examples/calls.toml --thread 0 --cycles 200

# The large image from its source, by whichever tools are installed.
if command -v clang >/dev/null && command -v ld.lld >/dev/null; then
    rm -f examples/big.fpx
    clang --target=riscv32-unknown-elf -march=rv32im -c -o big.o examples/big.s &&
        ld.lld -n -T examples/big.ld -o big.elf big.o && ./flexpret elf big.elf >examples/big.fpx
    as_here examples/big.fpx 'examples/big.s by clang and lld'
fi
if command -v riscv64-unknown-elf-as >/dev/null; then
    rm -f examples/big.fpx
    riscv64-unknown-elf-as -march=rv32im -mabi=ilp32 -o big.o examples/big.s &&
        riscv64-unknown-elf-ld -m elf32lriscv -n -T examples/big.ld -o big.elf big.o &&
        ./flexpret elf big.elf >examples/big.fpx
    as_here examples/big.fpx 'examples/big.s by GNU as and ld'
fi
exit $failed
