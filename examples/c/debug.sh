#!/usr/bin/env bash
# Runs each command that docs/DEBUG.md shows, in a folder of its own, and compares what it writes with the page. The gate does so
# too. FLEXPRET names the program, if it isn't ../../flexpret. Without gdb, or with a compiler that makes other code than the page
# shows, it says so and stops with success.
set -u
here=$(dirname "$(readlink -f "${BASH_SOURCE[0]}")")
top=$(readlink -f "$here/../..")
program=$(readlink -f "${FLEXPRET:-$top/flexpret}")

for tool in make riscv64-unknown-elf-gcc gdb-multiarch; do
    if ! command -v "$tool" >/dev/null; then
        echo "debug.sh: nothing was tried, since $tool isn't installed"
        exit 0
    fi
done

work=$(mktemp -d)
trap 'rm -rf "$work"' EXIT

. "$top/examples/shown.bash"
FLEXPRET=$(as_script "$program" "$work/script" "$top")
export FLEXPRET
# Without the user's own settings of gdb, and with time enough on a busy machine.
export HOME=$work
echo 'set remotetimeout 60' >"$work/.gdbinit"
mkdir "$work/examples"
cp -R "$here" "$work/examples/c"
ln -s "$top/tools" "$work/tools"
ln -s "$FLEXPRET" "$work/flexpret"
cd "$work" || exit 1

# The page shows addresses and cycles of one compiler.
make -s -C examples/c clean
make -s -C examples/c pid.elf
if ! cmp -s examples/c/pid.elf "$here/pid.elf"; then
    echo "debug.sh: nothing was tried, since this compiler makes another pid.elf than the repository's"
    exit 0
fi

read_page "$top/docs/DEBUG.md"
exit $failed
