#!/usr/bin/env bash
# Opens the page of a run in a browser without a window, for a look at it: run by hand, and skipped where there is no chromium.
#     KCORE=PROGRAM python/tests/view_screenshot.sh [FOLDER]
# writes readers.png, dark.png and levels.png into the folder (the one in which it is run), and fails where the page has an error.
set -u
here=$(cd "$(dirname "$0")" && pwd)
folder=$(realpath "${1:-.}")
browser=$(command -v chromium || command -v chromium-browser || command -v google-chrome) || {
  echo "The page isn't looked at: there is no chromium (on Debian: apt install chromium)"
  exit 0
}
scratch=$(mktemp -d)
trap 'rm -rf "$scratch"' EXIT
export PYTHONPATH="$here/../src"

# Three parts of sixty vertices grow and change, while three readers ask.
python3 - >"$scratch/readers.kc" <<'MAKE' || exit 1
import random
draw = random.Random(3)
print("kcore 2\nvertices 60")
for _ in range(3):
    print("ask 9000", *draw.sample(range(60), 7))
edges = set()
for batch in range(14):
    print("batch")
    if batch > 4:
        for edge in draw.sample(sorted(edges), 9):
            edges.discard(edge)
            print("-", *edge)
    for _ in range(26 if batch < 5 else 12):
        part = draw.randrange(3) * 20
        a, b = part + int(20 * draw.random() ** 2), part + int(20 * draw.random() ** 2)
        if draw.random() < 0.07:
            a, b = draw.randrange(60), draw.randrange(60)
        if a != b:
            edges.add((min(a, b), max(a, b)))
        print("+", a, b)
    print("end")
MAKE
python3 - >"$scratch/levels.txt" <<'MAKE' || exit 1
import random
draw = random.Random(4)
for _ in range(9000):
    print(int(3000 * draw.random() ** 2.5), int(3000 * draw.random() ** 2.5))
MAKE
# What readers are told is up to the schedule: of 30 runs the one is shown that told them most. (On a busy machine that may be little.)
program=$(python3 -c 'import kcore; print(kcore.program().path)') || exit 1
most=0
for _ in $(seq 30); do
  "$program" run 4 <"$scratch/readers.kc" >"$scratch/run.txt" || exit 1
  told=$(grep '^reader' "$scratch/run.txt" | awk '{ for (i = 3; i <= NF; i++) if (!seen[$2, $i]++) n++ } END { print n }')
  if [ "$told" -gt $most ]; then most=$told && mv "$scratch/run.txt" "$scratch/readers.txt"; fi
done
python3 -m kcore view "$scratch/readers.kc" -o "$scratch/readers.html" --title "Three readers" --text "$scratch/readers.txt" || exit 1
python3 -m kcore view "$scratch/levels.txt" -o "$scratch/levels.html" --batch 500 || exit 1

# The keys go through the page of a run whose levels docs/READING_THE_OUTPUT.md tells, and a script in a copy of it says what stands there.
python3 -m kcore view "$here/../../examples/history.kc" -o "$scratch/keys.html" || exit 1
python3 - "$scratch/keys.html" <<'PROBE' || exit 1
import sys
with open(sys.argv[1], encoding="utf-8") as file:
    page = file.read()
probe = """<script>setTimeout(() => {
  const said = [], press = key => dispatchEvent(new KeyboardEvent("keydown", {key, bubbles: true, cancelable: true}));
  const say = key => said.push(`${key} ${[...levels].join("")} ${edges.size}`);
  for (const k of ["Home", "ArrowRight", "ArrowRight", "ArrowRight", "ArrowRight", "ArrowRight", "ArrowLeft", "PageUp", "PageDown", "End", "Home"]) { press(k); say(k); }
  press("n"); press("n"); said.push(at("vertex-head").textContent);
  const box = canvas.getBoundingClientRect();
  press("End"); canvas.dispatchEvent(new PointerEvent("pointermove", {clientX: box.left + px(1), clientY: box.top + py(1)}));
  said.push(at("tip").textContent);
  document.body.innerHTML = "<pre>" + said.join("\\n") + "\\n</pre>";
}, 300);</script></body>"""
with open(sys.argv[1], "w", encoding="utf-8") as file:
    file.write(page.replace("</body>", probe))
PROBE
"$browser" --headless --no-sandbox --disable-gpu --window-size=1280,800 --virtual-time-budget=10000 --dump-dom "file://$scratch/keys.html" \
  2>/dev/null | sed -n '/<pre>/,/<\/pre>/p' | sed 's/.*<pre>//; /<\/pre>/d' >"$scratch/said.txt"
cat >"$scratch/wanted.txt" <<'SAID'
Home 000000 0
ArrowRight 111000 2
ArrowRight 111110 3
ArrowRight 121111 5
ArrowRight 121101 4
ArrowRight 121101 5
ArrowLeft 121101 4
PageUp 121111 5
PageDown 121101 5
End 121101 5
Home 000000 0
Vertex 1
1 · level 2: the coreness is at least 1 and at most 2; estimate 24 neighbours
SAID
diff "$scratch/wanted.txt" "$scratch/said.txt" || { echo "keys.html: the keys don't lead through the run"; exit 1; }

# look PAGE ADDRESS PICTURE
look() {
  "$browser" --headless --no-sandbox --disable-gpu --hide-scrollbars --window-size=1280,800 --virtual-time-budget=10000 \
    --enable-logging=stderr --screenshot="$folder/$3" "file://$scratch/$1#$2" 2>"$scratch/said"
  if grep -E "CONSOLE.*(rror|ncaught)" "$scratch/said"; then
    echo "$1: the page has an error"
    exit 1
  fi
  [ -s "$folder/$3" ] || { echo "$1: no picture"; exit 1; }
  echo "$folder/$3"
}
look readers.html "step=18&light&vertex=21" readers.png
look readers.html "step=30&dark&vertex=5" dark.png
look levels.html "step=24&light" levels.png
