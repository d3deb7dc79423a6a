#!/usr/bin/env bash
# dev/pages/pictures.sh FOLDER: renders pictures of the examples in Chromium without a window, into FOLDER as *.png. It reports texts that
# cover each other or leave the picture, cells of turns that something covers at their middle (so that the title isn't shown there),
# and pictures that the browser can't read. FLEXPRET_VIEW names the program, if it isn't the one that ./flexpret-view builds.
# It isn't part of the gate.
set -u
if [ $# -ne 1 ]; then
    sed -n '2,5s/^# //p' "$0" >&2
    exit 2
fi
cd "$(dirname "${BASH_SOURCE[0]}")/../.." || exit 1
mkdir -p "$1"
to=$(cd "$1" && pwd)
work=$(mktemp -d)
trap 'rm -rf "$work"' EXIT
failed=0

browser() { chromium --headless --no-sandbox --disable-gpu --hide-scrollbars "$@" 2>/dev/null; }

cat >"$work/look.js" <<'END'
const picture = document.querySelector("svg"), said = [];
const texts = [...picture.querySelectorAll("text")].map(text => [text.textContent, text.getBoundingClientRect()]);
const frame = picture.getBoundingClientRect();
texts.forEach(([text, box], i) => {
    if (box.left < frame.left || box.right > frame.right) said.push(`${text} leaves the picture`);
    for (const [other, its] of texts.slice(i + 1))
        if (box.left < its.right && its.left < box.right && box.top < its.bottom && its.top < box.bottom)
            said.push(`${text} covers ${other}`);
});
const cells = [...picture.querySelectorAll("rect:has(title)")];
for (const cell of cells) {
    cell.scrollIntoView({ inline: "center" });
    const box = cell.getBoundingClientRect();
    if (document.elementFromPoint((box.left + box.right) / 2, (box.top + box.bottom) / 2) !== cell)
        said.push(`something covers ${cell.textContent}`);
}
document.body.textContent = `looked at ${cells.length} cells and ${texts.length} texts: ${said.join("; ") || "well"}`;
END

# Draws the cycles of a setup, and checks the picture.
draws() {
    local name=$1 setup=$2 from=$3 to_cycle=$4 said
    ./flexpret-view --quiet turns "$setup" --from "$from" --to "$to_cycle" --svg "$work/$name.svg" || exit 1
    browser --window-size=$((60 + 12 * (to_cycle - from) + 100)),260 --screenshot="$to/$name.png" "file://$work/$name.svg"
    if browser --dump-dom "file://$work/$name.svg" | grep -q '<parsererror'; then
        echo "$name: the browser can't read the picture"
        failed=1
    fi
    {
        echo '<!DOCTYPE html><html><head><meta charset="utf-8"></head><body>'
        cat "$work/$name.svg"
        echo "<script>$(cat "$work/look.js")</script></body></html>"
    } >"$work/$name.html"
    said=$(browser --window-size=1000,400 --dump-dom "file://$work/$name.html" | grep -o 'looked at [^<]*')
    echo "$name: ${said:-nothing was looked at}"
    case $said in *': well') ;; *) failed=1 ;; esac
}

for setup in examples/*.toml examples/c/pid.toml examples/device/*.toml; do
    draws "$(basename "$setup" .toml)" "$setup" 0 120
done
draws late examples/drive.toml 3999999 4000009
draws widest examples/sleep.toml 11 2011
exit $failed
