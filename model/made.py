#!/usr/bin/env python3
"""The trace that `goheap gen SEED OBJECTS` makes, and the lines in which `goheap demo SEED OBJECTS` sums up a run of it.

Two words of PCG make an object: of the first come its processor, whether it has pointers and its stack, of the second its size. Each
64th object is large. A mark end follows each 10000th, and marks 5000 objects: the first thousand, and of the latest 8000 four of each
eight. No code is shared with the program.

Usage: model/made.py gen SEED OBJECTS, or model/made.py demo SEED OBJECTS
"""
import subprocess
import sys

import run


def gen(seed, objects):
    """The lines of the trace."""
    words = run.Words(seed, 64)
    lines = ["goheap 1", f"heap 128 procs 8 rate 524288 seed {seed} goal 65536"]
    for i in range(objects):
        first, second = words.next(), words.next()
        size = 32769 + second % 98304 if i % 64 == 63 else 1 + second % 1024
        lines.append(f"a {first % 8} {size} {'ns'[first // 8 % 2 == 0]} {first // 16 % 32}")
        n = i + 1
        if n % 10000 == 0:
            lines += ["gc 4194304", "m 0 999"] + [f"m {8 * k} {8 * k + 3}" for k in range((n - 8000) // 8, n // 8)]
    return lines + ["end"]


def demo(seed, objects):
    """The lines of the summary."""
    trace = "\n".join(gen(seed, objects) + [""])
    report = subprocess.run([sys.executable, run.__file__], input=trace, capture_output=True, text=True, check=True).stdout.split("\n")
    kinds = {kind: [line.split() for line in report if line.startswith(kind + " ")] for kind in "otp"}
    refused = sum(line[2] == "miss" for line in kinds["o"])
    zero = sum(line[2] == "zero" for line in kinds["o"])
    sums = [sum(int(line[at]) for line in kinds[kind]) for kind, at in (("t", 2), ("t", 3), ("p", 4), ("p", 5))]
    return [
        f"objects {objects}",
        f"placed {objects - refused - zero}",
        f"refused {refused}",
        f"mark ends {objects // 10000}",
        f"mallocs {sums[0]}",
        f"frees {sums[1]}",
        f"sampled {sums[2]} {sums[3]}",
        "check ok",
    ]


if __name__ == "__main__":
    print("\n".join({"gen": gen, "demo": demo}[sys.argv[1]](int(sys.argv[2]), int(sys.argv[3]))))
