#!/usr/bin/env bash
# Makes loops.elf and calls.elf of their sources; the tests take those that are here.
set -eu
cd "$(dirname "$0")"
compile() { clang --target=riscv32-unknown-elf -march=rv32im -mabi=ilp32 "$@"; }
link() { ld.lld -n --entry=0 -Ttext=0 -Tbss=0x20000000 "$@"; }

compile -Os -gdwarf-4 -ffreestanding -fdebug-compilation-dir=. -I ../../../examples/c -S -o loops.compiled.s loops.c
../../fp_layout loops.compiled.s -o loops.laid.s
compile -fdebug-compilation-dir=. -c -o loops.o loops.laid.s
rm loops.compiled.s loops.laid.s
link -X -o loops.elf loops.o
compile -c -o calls.o calls.s
link -o calls.elf calls.o
rm loops.o calls.o
