#!/usr/bin/env bash
# What a page of 1,000,000 objects comes to: the processor seconds and the memory that `recorder/look` takes for it, how long it is, and how long a
# browser takes from its address to its first view, and to each other view. Three recordings: `most` of which most objects die before a mark end
# (60 mark ends, 2,000 stacks), `fifth` of which each fifth lives at the one mark end, and `apart`, of which each object has a stack of its own and
# lives. Needs a browser, and measures nothing without one.
set -eu

. "$(dirname "$(readlink -f "$0")")/timing.sh"

python3 - "$folder" <<'MAKE'
import sys
sys.path.insert(0, "recorder")
from goheap_tools.tests import made
folder = sys.argv[1]
def write(name, trace, stacks=None, report=None):
    for kind, text in (("trace", trace), ("stacks", stacks), ("report", report)):
        if text is not None:
            with open(f"{folder}/{name}.{kind}", "w") as file:
                file.write(text)
trace, stacks = made.made_trace(1_000_000, 60, 2, 2000)
write("most", trace.replace("heap 16", "heap 2048").replace("goal 8192", "goal 1048576"), stacks)
trace, report, stacks = made.long_recording(1_000_000)
write("fifth", trace, stacks, report)
lines = "".join(f"a 0 {1 + i * 7919 % 512} {'ssn'[i % 3]} {i}\n" for i in range(1_000_000))
write("apart", f"goheap 1\nheap 128 procs 1 rate 0 seed 1 goal 65536\n{lines}gc 4194304\nm 0 999999\nend\n")
MAKE

for name in most fifth apart; do
  [ -f "$folder/$name.report" ] || ./goheap run <"$folder/$name.trace" >"$folder/$name.report"
  stacks=()
  [ ! -f "$folder/$name.stacks" ] || stacks=(--stacks "$folder/$name.stacks")
  /usr/bin/time -f "$name: %U s of processor time, %M KB" recorder/look "$folder/$name.trace" "$folder/$name.report" "${stacks[@]}" --no-judge -o "$folder/$name.html" 2>&1 | tail -n 2
  python3 - "$folder/$name.html" <<'OPEN'
import sys, time
sys.path.insert(0, "recorder")
from goheap_tools.tests.browser import Browser, browser_command
if not browser_command():
    sys.exit("no browser: its times are not measured")
browser = Browser()
print(f"  opened in {browser.open(sys.argv[1]):.1f} s", end="")
for number, view in enumerate(("summary", "time", "flame", "table", "heap", "pins"), 1):
    began = time.monotonic()
    browser.press(str(number), f"Digit{number}")
    print(f", {view} {time.monotonic() - began:.1f} s", end="")
print(f"; {len(browser.errors)} errors")
browser.close()
OPEN
done
