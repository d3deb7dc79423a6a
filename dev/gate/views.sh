#!/usr/bin/env bash
# Compares the view with the stored files of the examples: the lines and the picture of docs/VIEW.md, a value change dump and a log
# for Konata, which the script draws. Checks the logs of all examples against the rules of the format, and their pictures as XML. Checks also the additions of
# ./flexpret-view and tools/fp_view. FLEXPRET_VIEW names the program, if it isn't the one that ./flexpret-view builds.
set -u
cd "$(dirname "${BASH_SOURCE[0]}")/../.." || exit 1
view=$(readlink -f "${FLEXPRET_VIEW:-crates/flexpret_view/out/flexpret_view}")
unset FLEXPRET_VIEW
work=$(mktemp -d)
trap 'rm -rf "$work"' EXIT
failed=0

# Reports a difference.
wrong() {
    echo "dev/gate/views.sh: $*" >&2
    failed=1
}

# The script with this program.
draws() { ./flexpret-view --quiet --use "$view" turns "$@"; }

# shows FILE ARGUMENT..: compares the view of these arguments with a file.
shows() {
    local file=$1
    shift
    draws "$@" | cmp - "$file" || failed=1
}

shows examples/drive.vcd examples/drive.toml --from 0 --to 77 --vcd -
shows examples/slots.konata examples/slots.toml --from 3 --to 20 --konata -
shows docs/drive.svg examples/drive.toml --from 0 --to 80 --svg -
shows <(sed -n '/^    \$ .*turns .*sleep.toml/,/^$/{/^    \$/d; /^$/d; s/^    //p}' docs/VIEW.md) examples/sleep.toml --from 4 --to 13

# refuses LINE ARGUMENT..: compares the line about wrong arguments.
refuses() {
    local line=$1 said
    shift
    said=$(draws examples/drive.toml "$@" 2>&1)
    [ "$?:$said" = "2:$line" ] || wrong "$*: ${said@Q}"
}

refuses "flexpret_view: --from isn't below --to" --from 5 --to 5
refuses "flexpret-view: --from 0 --to 2001: a picture has at most 2000 cycles" --from 0 --to 2001 --svg -

for setup in examples/*.toml examples/c/pid.toml examples/device/*.toml; do
    name=$work/$(basename "$setup" .toml)
    draws "$setup" --from 1 --to 500 --konata "$name.konata" || wrong "no log of $setup"
    draws "$setup" --from 1 --to 500 --svg "$name.svg" || wrong "no picture of $setup"
    tools/fp_view "$setup" --view "$view" --from 1 --to 500 --mark 4:8=9 --stages --svg "$name.more" || wrong "no stages of $setup"
    # But for the signals that are added, the dump is the view's.
    tools/fp_view "$setup" --view "$view" --from 1 --to 500 --vcd - | sed '1,/enddefinitions/d; / *[TCWADHUq].$/d' |
        cmp - <(draws "$setup" --from 1 --to 500 --vcd - | sed '1,/enddefinitions/d') || failed=1
done
python3 -m dev.fuzz.kanata "$work"/*.konata || failed=1
python3 - "$work"/*.svg "$work"/*.more <<'END' || failed=1
import re
import sys
from xml.etree import ElementTree

for name in sys.argv[1:]:
    cells = [cell for cell in ElementTree.parse(name).iter() if cell.find("./{*}title") is not None]
    if not cells or any(not re.match("([FDEMW] in )?cycle |(deadline of )?4:8=9: |T[0-7] has armed ", cell[0].text) for cell in cells):
        sys.exit(f"{name}: no cell has a title that tells its cycle")
END

# The script, by a link, with a program of the current sources: it builds nothing.
mkdir -p "$work/top/crates/flexpret_view/out" "$work/top/tools" "$work/bin"
cp flexpret-view crates.txt "$work/top"
cp -R tools/launch.bash tools/fp_launch tools/fptools "$work/top/tools"
cp -R crates/flexpret_view/src "$work/top/crates/flexpret_view"
cp "$view" "$work/top/crates/flexpret_view/out/flexpret_view"
PYTHONPATH=tools python3 - "$work/top" <<'END' || failed=1
import sys
from pathlib import Path

from fptools.launch.up_to_date import Checkout

checkout = Checkout(Path(sys.argv[1]), "flexpret_view")
checkout.write_stamp("the kit of the test", checkout.listed())
END
# shellcheck disable=SC2016
printf '#!/bin/sh\necho "$0 is called"\nexit 1\n' >"$work/bin/rt"
chmod +x "$work/bin/rt"
ln -s "$work/top/flexpret-view" "$work/view"
export PATH=$work/bin:$PATH

# Two windows. The first has cycle 1048576, after which the line of the progress is shown. `told` is that line and its removal.
here=(turns examples/drive.toml --from 1048570 --to 1048580)
behind=(turns examples/drive.toml --from 1048580 --to 1048590)
told() { printf '\rflexpret_view: 99 %%, cycle 1048576 of %s\r%60s\r' "$1" ''; }

# gets OUTPUT WORD..: compares the output of the script on a terminal, called with words of the shell. Each line ends with \r.
gets() {
    local wanted=$1 shown
    shift
    shown=$(script -qec "$work/view $*" /dev/null </dev/null | tr -d '\n')
    [ "$shown" = "$wanted" ] || wrong "$*: a terminal gets ${shown@Q}"
}

"$view" "${here[@]}" >"$work/lines"
"$work/view" "${here[@]}" >"$work/out" 2>"$work/err" || wrong "the script fails"
cmp "$work/lines" "$work/out" || failed=1
[ ! -s "$work/err" ] || wrong "standard error is no terminal, and gets $(cat "$work/err")"
if ! script -qec true /dev/null </dev/null >/dev/null 2>&1; then
    echo "views.sh: no terminal can be had here; what one gets isn't tried"
    exit $failed
fi
gets "$(tr '\n' '\r' <"$work/lines")" "${here[@]}"
gets "" "${here[*]} --progress before >$work/out"
gets "$(told 1048583)" "${here[*]} >$work/out"
cmp "$work/lines" "$work/out" || failed=1
gets "$(told 1048583)" "${here[*]} --vcd $work/out"
gets "$(told 1048593)$("$view" "${behind[@]}" | tr '\n' '\r')" "${behind[@]}"
exit $failed
