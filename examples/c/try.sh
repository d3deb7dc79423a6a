#!/usr/bin/env bash
# Runs each command that docs/C.md shows, on a copy of this folder, and compares what it writes with the page: by the script
# ./flexpret around the program. The gate does so too. FLEXPRET names the program, if it isn't ../../flexpret, and FLEXPRET_VIEW
# the program of the view, if it isn't the one that ../../flexpret-view leaves. Without gcc for RISC-V it says so and stops with
# success.
set -u
here=$(dirname "$(readlink -f "${BASH_SOURCE[0]}")")
top=$(readlink -f "$here/../..")
program=$(readlink -f "${FLEXPRET:-$top/flexpret}")
if [ -n "${FLEXPRET_VIEW:-}" ]; then FLEXPRET_VIEW=$(readlink -f "$FLEXPRET_VIEW") && export FLEXPRET_VIEW; fi

for tool in make riscv64-unknown-elf-gcc; do
    if ! command -v "$tool" >/dev/null; then
        echo "try.sh: nothing was tried, since $tool isn't installed"
        exit 0
    fi
done

work=$(mktemp -d)
trap 'rm -rf "$work"' EXIT

. "$top/examples/shown.bash"
FLEXPRET=$(as_script "$program" "$work/script" "$top")
export FLEXPRET
mkdir "$work/examples"
cp -R "$here" "$here/../own" "$work/examples"
ln -s "$top/tools" "$work/tools"
ln -s "$FLEXPRET" "$work/flexpret"
ln -s "$top/flexpret-view" "$work/flexpret-view"
cd "$work" || exit 1
make -s -C examples/c clean

# The page shows addresses of one compiler. With another one the sections 1 to 4 are left out, and section 5 is tried on the
# repository's executable.
other=
make -s -C examples/c pid.elf
if ! cmp -s examples/c/pid.elf "$here/pid.elf"; then
    echo "this compiler makes another pid.elf than the repository's: sections 1 to 4 aren't tried"
    other=1
fi
make -s -C examples/c clean

section=
try_command() {
    if [ -z "$other" ] || [ "$section" = 5 ]; then
        as_shown "$1"
        [ "$1" != 'make -C examples/c' ] || cp "$here/pid.elf" examples/c/pid.elf
    fi
}

# Keeps the number of the section.
other_line() {
    [[ $1 != '## '* ]] || section=${1:3:1}
}
read_page "$top/docs/C.md"

# Whether a command writes what a file of the repository has.
writes() {
    local file=$1
    shift
    ./flexpret "$@" | cmp -s - "$here/$file" || fail "$file"
}
writes pid.fpx elf examples/c/pid.elf
writes pid.trace run examples/c/pid.toml --thread 0 --cycles 1250
writes pid.bound bound examples/c/pid.toml --thread 0 --from 0xb4 --to 0x1a4

# The copies that the gate's rows read.
"$top/dev/gate/examples.sh" || fail dev/gate/examples.sh

# The same program by clang: other addresses and cycles, but the same words at the port.
if command -v clang >/dev/null && command -v ld.lld >/dev/null; then
    port() { ./flexpret run examples/c/pid.toml --thread 0 --cycles 1250 | sed -n 's/.*\[40000000]//p'; }
    port >"$work/by-gcc"
    make -s -B -C examples/c TOOLS=llvm && ./flexpret elf examples/c/pid.elf >examples/c/pid.fpx
    port >"$work/by-clang"
    if [ -s "$work/by-gcc" ] && cmp -s "$work/by-gcc" "$work/by-clang"; then
        echo 'the same words at the port: make -C examples/c TOOLS=llvm'
    else
        fail 'make -C examples/c TOOLS=llvm'
    fi
else
    echo "make -C examples/c TOOLS=llvm wasn't tried, since clang or ld.lld isn't installed"
fi
exit $failed
