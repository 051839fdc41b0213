"""Go's own page allocator and page caches under the judge: what they answer to many calls is a journal that a report may have."""

import json
import os
import tempfile

from goheap_tools.tests import verdict
from goheap_tools.tests.go_pages import overlay_for, regions
from goheap_tools.tests.go_tools import GoTest, toolchains

CALLS = int(os.environ.get("GOHEAP_CALLS", "1500"))  # of each region, beside those that fill it; bench/go_pages.sh makes many more


class GoPages(GoTest):
    def test_each_call_is_one_that_a_journal_may_have(self):
        version = max(toolchains())
        print(f"Go {version}'s own pages are {verdict.name()}", flush=True)
        with tempfile.TemporaryDirectory() as folder:
            found = list(regions(toolchains()[version], folder, CALLS))
            self.assertEqual([region.chunks for region in found], [1, 2, 3, 8, 32, 128])
            for region in found:
                with self.subTest(chunks=region.chunks):
                    with open(region.report) as file:
                        report = file.read()
                    self.assertEqual(verdict.verdict(region.trace, report)[0], "sound")
                    for word in ("hold", "keep", "take", "cut", "free", "pull", "drop", "lend", "scav"):
                        self.assertIn(f" {word} ", report)
                    self.assertTrue(all(region.calls.values()), region.calls)
            with open(found[0].report) as file:
                self.refused(found[0].trace, file.read())

    def refused(self, trace, report):
        """A run that is held a page behind is no answer of Go's."""
        at = report.index(" hold ", len(report) // 2)
        end = report.index("\n", at)
        page, pages = map(int, report[at + len(" hold ") : end].split())
        changed = report[:at] + f" hold {page + 1} {pages}" + report[end:]
        self.assertRegex(verdict.verdict(trace, changed)[0], r"^report line \d+: rule 2$")

    def test_the_overlay_changes_no_file_of_go_s(self):
        """It adds our test, and leaves out tests."""
        for go in toolchains().values():
            with tempfile.TemporaryDirectory() as folder, open(overlay_for(go, folder)) as file:
                replace = json.load(file)["Replace"]
            ours = [path for path, to in replace.items() if to]
            self.assertEqual([os.path.basename(path) for path in ours], ["goheap_pages_test.go"])
            self.assertTrue(all(path.endswith("_test.go") for path in replace))
            self.assertFalse(any(os.path.exists(path) for path in ours))
