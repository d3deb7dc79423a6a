#!/usr/bin/env bash
# Makes the executables of this folder of their sources, by gcc 12.2 and GNU ld; the tests take those that are here.
set -eu
cd "$(dirname "$0")"
c=../../../../examples/c
compile() {
    riscv64-unknown-elf-gcc -march=rv32im_zicsr -mabi=ilp32 -ffreestanding -Wall -Wextra -g "-fdebug-prefix-map=$PWD=." \
        -fdebug-prefix-map=/usr/lib/gcc=gcc -I "$c" "$@"
}
# built NAME SOURCE OPTIONS..: the executable of a source of thread 0.
built() {
    local name=$1 source=$2
    shift 2
    compile "$@" -c -o "t0_$name.o" "$source"
    linked "$name" "t0_$name.o"
}
# laid NAME SOURCE OPTIONS..: the same with the blocks in the order of fp_layout, which leaves an asm with labels as it is.
laid() {
    local name=$1 source=$2
    shift 2
    compile "$@" -S -o "$name.compiled.s" "$source"
    ../../../fp_layout "$name.compiled.s" -o "$name.laid.s" || [[ $? == 1 ]]
    compile "$@" -c -o "t0_$name.o" "$name.laid.s"
    rm "$name.compiled.s" "$name.laid.s"
    linked "$name" "t0_$name.o"
}
# linked NAME OBJECT OPTIONS..: the executable of an object; one of C begins in start.s.
linked() {
    local objects=("$2")
    if ! riscv64-unknown-elf-nm "$2" | grep -q ' start0$'; then
        compile -c -o start.o start.s
        objects+=(start.o)
    fi
    riscv64-unknown-elf-ld -m elf32lriscv -n -T "$c/flexpret.ld" -o "$1.elf" "${objects[@]}" "${@:3}"
    rm "${objects[@]}"
}
laid head_test head_test.c -Os -fno-optimize-sibling-calls
built one_head one_head.c -Os
laid taps16 taps.c -Os -DTAPS=16
laid taps32 taps.c -Os -DTAPS=32
built moved moved.c -Os '-DKEEP(value)='
built kept moved.c -Os '-DKEEP(value)=FP_KEEP(value)'
laid left_first left_first.c -Os
laid folded folded.c -O2 -fno-reorder-blocks
laid unfolded folded.c -O2 -fno-reorder-blocks -fno-ipa-icf
built moved_plain moved.c -Os -g0 '-DKEEP(value)='
# Work of line 9 without a line, as clang has what it joins of two lines.
clang --target=riscv32-unknown-elf -march=rv32im -mabi=ilp32 -O2 -gdwarf-4 -fdebug-compilation-dir=. -I "$c" '-DKEEP(value)=' \
    -ffreestanding -S -o - moved.c | sed -E 's/(\.loc\t[0-9]+) 9 [0-9]+/\1 0 0/' >t0_noline.s
clang --target=riscv32-unknown-elf -march=rv32im -mabi=ilp32 -fdebug-compilation-dir=. -c -o t0_noline.o t0_noline.s
rm t0_noline.s
linked noline t0_noline.o
built marked marked.c -Os
built expires expires.c -Os
built emulates emulates.s
built crossing crossing.s
built callee callee.c -Os
laid shapes shapes.c -O2 -fno-reorder-blocks
laid shapes_o3 shapes.c -O3
built tail tail.c -O2
built elsewhere elsewhere.s
compile -Os -c -o t1_other.o other_thread.c
linked other_thread t1_other.o --defsym main0=stopped0
