#!/usr/bin/env bash
# tools/install.sh PREFIX: installs the built program under PREFIX, as /usr/local, with the script ./flexpret around it, the tools that
# it calls, its man page and its completion for bash; and the same of the view, if ./flexpret-view has built it. They need nothing else of
# this repository. FLEXPRET and FLEXPRET_VIEW name the programs, if they aren't the ones that the scripts build.
set -eu
if [ $# -ne 1 ] || [ "${1#-}" != "$1" ]; then
    sed -n '2,5s/^# //p' "$0" >&2
    exit 2
fi
tools=$(dirname "$(readlink -f "$0")")
top=$(dirname "$tools")

fail() {
    echo "install.sh: $1" >&2
    exit 1
}

# Ends here where a file is no ELF executable, as the script ./flexpret is.
refuse_script() {
    [ "$(head -c 4 "$1" | tr -d '\0')" = $'\x7fELF' ] || fail "$1 is no ELF executable: name the program itself, no script that calls it"
}

# put PROGRAM CRATE SCRIPT: a program with its record, its script, man page and completion.
put() {
    local place=$home/crates/$2/out
    install -D -m 755 "$1" "$place/$2"
    [ ! -f "$1.sources" ] || install -D -m 644 "$1.sources" "$place/$2.sources"
    install -D -m 755 "$top/$3" "$home/$3"
    mkdir -p "$prefix/bin"
    ln -sfn "../lib/rilluqar/$3" "$prefix/bin/$3"
    install -D -m 644 "$tools/$3.1" "$prefix/share/man/man1/$3.1"
    install -D -m 644 "$tools/flexpret.bash" "$prefix/share/bash-completion/completions/$3"
}

# The tools that the scripts call, their package with its schemas, and the model.
put_tools() {
    local file
    for file in "$tools"/fp* "$tools"/launch.bash; do
        [ -d "$file" ] || install -D -m "$([ -x "$file" ] && echo 755 || echo 644)" "$file" "$home/tools/${file##*/}"
    done
    while read -r file; do
        install -D -m 644 "$tools/$file" "$home/tools/$file"
    done < <(cd "$tools" && find fptools \( -name tests -o -name testing -o -name __pycache__ -o -name evidence.toml \) -prune -o -type f -print)
    # The model, for --model.
    for file in "$top"/model/*.py; do
        install -D -m 644 "$file" "$home/model/${file##*/}"
    done
    # fp_new makes programs of them.
    for file in Makefile flexpret.h flexpret.ld start.s; do
        install -D -m 644 "$top/examples/c/$file" "$home/examples/c/$file"
    done
}

program=${FLEXPRET:-$top/crates/flexpret_cli/out/flexpret_cli}
view=${FLEXPRET_VIEW:-$top/crates/flexpret_view/out/flexpret_view}
[ -x "$program" ] || fail "no program is built yet; ./flexpret selfrun 1 builds it"
refuse_script "$program"
[ ! -x "$view" ] || refuse_script "$view"
if ! mkdir -p -- "$1" 2>/dev/null || [ ! -w "$1" ]; then fail "$1 can't be written"; fi
prefix=$(cd -- "$1" && pwd)
home=$prefix/lib/rilluqar
put_tools
: >"$home/installed"
put "$program" flexpret_cli flexpret
[ ! -x "$view" ] || put "$view" flexpret_view flexpret-view
