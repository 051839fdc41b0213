"""The overlay of package runtime: where our calls go in, what is refused, and what is kept."""

import json
import os
import shutil
import tempfile
import unittest
import unittest.mock
from pathlib import Path

from goheap_tools.inside import overlay, places

from .go_tools import GoTest, toolchains


class FakeGo(unittest.TestCase):
    """A go command that is none: it tells of a version and of a folder with a runtime."""

    def setUp(self):
        self.folder = Path(tempfile.mkdtemp(prefix="goheap overlay "))
        self.addCleanup(shutil.rmtree, self.folder)
        self.runtime = self.folder / "root" / "src" / "runtime"
        self.runtime.mkdir(parents=True)

    def command(self, version="go1.21.13", system="linux", machine="amd64"):
        path = self.folder / "go"
        path.write_text(f'#!/bin/sh\nprintf "%s\\n" "{version}" "{self.folder}/root" {system} {machine}\n')
        path.chmod(0o755)
        return str(path)

    def runtime_of(self, missing=None, twice=None):
        """Files that have the functions and statements that are looked for, and no more; one may be left out, or stand twice."""
        texts = {}
        for place in places.PLACES:
            texts.setdefault(place.file, {}).setdefault(place.function, []).append(place)
        for name, functions in texts.items():
            lines = ["package runtime", ""]
            for function, found in functions.items():
                lines.append(function if function.endswith("{") else function + "x int) {")
                for place in found:
                    times = place.times - (place is missing) + (place is twice)
                    lines += ["\tif true {", *["\t\t" + STATEMENTS[place.statement]] * times, "\t}"] if place.statement else []
                lines += [*WORDS.get(function, []), "}", ""]
            (self.runtime / name).write_text("\n".join(lines))

    def refused(self, go):
        with self.assertRaises(overlay.Refused) as caught:
            overlay.prepare(go, self.folder / "cache")
        self.assertFalse((self.folder / "cache").exists())
        return str(caught.exception)


# A line for each statement that is looked for.
STATEMENTS = {
    "": "", r"return unsafe\.Pointer\(&zerobase\)": "return unsafe.Pointer(&zerobase)", r"c\.tinyAllocs\+\+": "c.tinyAllocs++",
    r"mp\.mallocing = 0": "mp.mallocing = 0", r"mProf_Malloc\(x, size\)": "mProf_Malloc(x, size)", r"setGCPhase\(_GCmark\)": "setGCPhase(_GCmark)",
    r"mheap_\.sweepgen \+= 2": "mheap_.sweepgen += 2", r"s\.allocCount = nalloc": "s.allocCount = nalloc",
    r"\*c = h\.pages\.allocToCache\(\)": "*c = h.pages.allocToCache()", r"base, scav = c\.alloc\(npages\)": "base, scav = c.alloc(npages)",
    r"base, scav = h\.pages\.alloc\(npages\)": "base, scav = h.pages.alloc(npages)",
    r"h\.pages\.free\(s\.base\(\), s\.npages(?:, false)?\)": "h.pages.free(s.base(), s.npages, false)", r"h\.pages\.grow\((\S+), (.+)\)": "h.pages.grow(v, n-v)",
    r"\*c = pageCache\{\}": "*c = pageCache{}", r"addr := chunkBase\(ci\) \+ uintptr\(base\)\*pageSize": "addr := chunkBase(ci) + uintptr(base)*pageSize",
    r"p\.chunkOf\(ci\)\.scavenged\.setRange\(base, npages\)": "p.chunkOf(ci).scavenged.setRange(base, npages)", r"c\.alloc\[spc\] = s": "c.alloc[spc] = s",
    r"sg := mheap_\.sweepgen": "sg := mheap_.sweepgen", r"copy\(stats\.BySize\[:\], bySize\[:\]\)": "copy(stats.BySize[:], bySize[:])", r"old := gomaxprocs": "old := gomaxprocs",
}  # fmt: skip
WORDS = {
    "func mallocgc(": ["\tnoscan := typ == nil || typ.ptrdata == 0"],
    "func gcPaceSweeper(": ["\theapLiveBasis := atomic.Load64(&gcController.heapLive)"],
}


class Places(FakeGo):
    def test_each_place_is_found_once(self):
        self.runtime_of()
        target = overlay.prepare(self.command(), self.folder / "cache")
        replaced = json.loads(Path(target).read_text())["Replace"]
        self.assertEqual({Path(path).parent for path in replaced}, {self.runtime})
        texts = [Path(path).read_text() for path in replaced.values() if not os.path.basename(path).startswith("goheap_")]
        inserted = [line.strip() for text in texts for line in text.split("\n")]
        for place in places.PLACES:
            count = place.times if place.which is None else 1
            same = [other for other in places.PLACES if other.call == place.call]
            call = place.call.replace(r"\1", "v").replace(r"\2", "n-v")
            self.assertEqual(inserted.count(call), count * len(same), place.event)

    def test_a_place_that_is_not_there_or_is_twice_is_named(self):
        for place in places.PLACES:
            if place.where == places.ENDING:
                continue
            for missing, twice, found in ((place, None, place.times - 1), (None, place, place.times + 1)):
                with self.subTest(place=place.event, found=found):
                    self.runtime_of(missing, twice)
                    said = self.refused(self.command("go1.20.3"))
                    where = f"`{place.function}` in runtime/{place.file}"
                    self.assertEqual(said, f"go1.20.3: {place.event}: {where} has {found} statements `{place.statement}`, not {place.times}")

    def test_a_function_that_is_not_there_is_named(self):
        self.runtime_of()
        text = (self.runtime / "mstats.go").read_text()
        (self.runtime / "mstats.go").write_text(text.replace("readmemstats_m", "another"))
        self.assertEqual(self.refused(self.command()), "go1.21.13: runtime.ReadMemStats: runtime/mstats.go has `func readmemstats_m(` 0 times, not once")

    def test_a_file_that_is_not_there(self):
        self.runtime_of()
        (self.runtime / "proc.go").unlink()
        self.assertIn(f"go1.21.13: {self.runtime}/proc.go: No such file or directory", self.refused(self.command()))

    def test_a_word_that_is_not_known(self):
        self.runtime_of()
        text = (self.runtime / "mgcsweep.go").read_text()
        (self.runtime / "mgcsweep.go").write_text(text.replace("atomic.Load64(&gcController.heapLive)", "gcController.live()"))
        self.assertIn("HEAP_LIVE: runtime/mgcsweep.go has", self.refused(self.command()))

    def test_other_versions_and_machines(self):
        for version in ("go1.18.10", "go1.22.1", "devel go1.23-abc", "go1.2"):
            self.assertEqual(self.refused(self.command(version)), f"{version}: only Go 1.19, 1.20 and 1.21 are known")
        self.assertEqual(self.refused(self.command(machine="arm64")), "a recording is made on linux/amd64, not on linux/arm64")
        self.assertEqual(self.refused(self.command(system="darwin")), "a recording is made on linux/amd64, not on darwin/amd64")
        self.assertEqual(self.refused(str(self.folder / "none")), f"{self.folder}/none: No such file or directory")


class Cache(FakeGo):
    def test_what_is_there_is_taken_and_a_changed_runtime_makes_another(self):
        self.runtime_of()
        go, cache = self.command(), self.folder / "cache"
        first = overlay.prepare(go, cache)
        made = os.stat(first).st_mtime_ns
        self.assertEqual((overlay.prepare(go, cache), os.stat(first).st_mtime_ns), (first, made))
        (self.runtime / "proc.go").write_text((self.runtime / "proc.go").read_text() + "\n")
        self.assertNotEqual(overlay.prepare(go, cache), first)

    def test_the_folder(self):
        with unittest.mock.patch.dict(os.environ, {"XDG_CACHE_HOME": "/some/place", "HOME": "/home/me"}):
            self.assertEqual(overlay.cache_folder(), Path("/some/place/goheap/overlay"))
        with unittest.mock.patch.dict(os.environ, {"XDG_CACHE_HOME": "not/absolute", "HOME": "/home/me"}):
            self.assertEqual(overlay.cache_folder(), Path("/home/me/.cache/goheap/overlay"))


class RealGo(GoTest):
    def test_the_difference_is_our_calls_alone(self):
        for go in toolchains().values():
            with self.subTest(go=go):
                text = overlay.difference(go)
                self.assertEqual([line for line in text.split("\n") if line.startswith("-") and not line.startswith("---")], [])
                changed = text.split("+++ goheap/goheap_")[0]
                added = [line for line in changed.split("\n") if line.startswith("+") and not line.startswith("+++")]
                self.assertEqual(len(added), sum(place.times if place.which is None else 1 for place in places.PLACES))
                self.assertTrue(all("goheap" in line for line in added))


if __name__ == "__main__":
    unittest.main()
