#!/usr/bin/env bash
# go_pages.sh [CALLS]: has Go's own page allocator and page caches make some CALLS calls (default 150000) of each region of 1 to 128 chunks, beside
# those that fill it page by page, by each Go of 1.19 to 1.21 that is on the machine, and has what they answered judged: by goheap where one is built
# that reads version 4, and else by recorder/explain. It prints how many calls of each kind there were, the lines of the journal, and the verdict.
set -eu

cd "$(dirname "$(readlink -f "$0")")/../recorder"
exec python3 - "${1:-150000}" <<'PROGRAM'
import sys
import tempfile
from collections import Counter

from goheap_tools.tests import go_pages, go_tools, verdict

print(verdict.name())
for version, go in sorted(go_tools.toolchains().items(), reverse=True):
    total = Counter()
    with tempfile.TemporaryDirectory() as folder:
        for region in go_pages.regions(go, folder, int(sys.argv[1])):
            with open(region.report) as file:
                said = verdict.verdict(region.trace, file.read())[0]
            print(f"Go {version}, {region.chunks} chunks: {sum(region.calls.values()):,} calls, {region.lines:,} lines: {said}", flush=True)
            total.update(region.calls, lines=region.lines)
    lines = total.pop("lines")
    print(f"Go {version}: {sum(total.values()):,} calls, {lines:,} lines: " + ", ".join(f"{count:,} {name}" for name, count in total.items()), flush=True)
PROGRAM
