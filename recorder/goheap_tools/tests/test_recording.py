"""Tests of `record`, and of what reads logs."""

import gzip
import io
import lzma
import os
import pty
import signal
import unittest.mock

from goheap_tools.cli import recording, running
from goheap_tools.formats import frames, golog
from goheap_tools.tests.testing import Folder, block, body, data, module, path_of, run, text_of

OPTIONS = ["--chunks", "2", "--procs", "2", "--rate", "100", "--seed", "7", "--goal", "50", "--distance", "1000", "--keep-last"]


def reset_signals():
    signal.signal(signal.SIGINT, signal.default_int_handler)
    signal.signal(signal.SIGTERM, signal.SIG_DFL)


class Recording(Folder):
    def test_the_stored_log(self):
        stacks = os.path.join(self.folder.name, "stacks")
        status, trace, said = run("record", "--stacks", stacks, *OPTIONS, given=data("small.allocfreetrace"))
        self.assertEqual((status, trace), (0, data("small.trace")))
        self.assertEqual(body(text_of(stacks)), data("small.stacks"))
        self.assertIn("1 allocations have no size as asked for", said)
        self.assertIn("6 objects, 2 mark ends, 5 marked objects, 5 stacks", said)
        self.assertIn("record: 2 lines of the log are of no block, and are passed over as the program's own, 1 of them torn by a block; the first at line 1\n", said)

    def test_tiny_blocks(self):
        log = data("small.allocfreetrace").replace("runtime.mallocgc(0x10, 0x0, 0x0)", "runtime.mallocgc(0x5, 0x0, 0x0)")
        self.assertEqual(run("record", *OPTIONS, given=log)[1], data("small.trace"))
        self.assertEqual(run("record", *OPTIONS, "--no-tiny-blocks", given=log)[1], data("small.trace").replace("a 1 16 n 2", "a 1 5 n 2"))

    def test_a_goroutine_stays_on_its_processor(self):
        goroutines = [1, 18, 1, 35, 64, 65, 18, 1000]
        log = "".join(block(0xC000000000 + 16 * one, goroutine=goroutine) for one, goroutine in enumerate(goroutines))
        for procs in (1, 2, 8, 64):
            _, trace, _ = run("record", "--procs", str(procs), given=log)
            self.assertEqual(trace.splitlines()[1], f"heap 128 procs {procs} rate 1 seed 1 goal 65536")
            found = [int(line.split()[1]) for line in trace.splitlines() if line.startswith("a ")]
            self.assertEqual(found, [goroutine % procs for goroutine in goroutines])

    def test_file_names_are_trimmed(self):
        stacks = os.path.join(self.folder.name, "stacks")
        run("record", "--stacks", stacks, "--trim", "/home/", "--trim", "/go/src/", given=data("small.allocfreetrace"))
        self.assertEqual(body(text_of(stacks)), data("small.stacks").replace(" /home/", " ").replace(" /go/src/", " "))

    def test_a_log_cut_anywhere_gives_a_whole_trace(self):
        log = data("small.allocfreetrace")
        for end in range(log.index("tracealloc(0xc000012000"), len(log), 97):
            _, trace, said = run("record", *OPTIONS, given=log[:end])
            self.assertTrue(trace.endswith("end\n"), end)
            whole = data("small.trace").splitlines()
            allocations = [line for line in trace.splitlines() if line.startswith("a ")]
            expected = [line for line in whole if line.startswith("a ")]
            self.assertEqual(allocations, expected[: len(allocations)], end)

    def test_a_cut_block_is_told(self):
        log = data("small.allocfreetrace")
        for kind, inside in (("tracealloc", "main.push"), ("tracefree", "runtime.(*sweepLocked).sweep"), ("tracegc", "goroutine 8")):
            cut = log[: log.index(inside)]
            _, _, said = run("record", "--verbose", given=block(16) + cut)
            line = 5 + cut[: cut.rindex(kind + "(")].count("\n") + 1
            self.assertIn(f"line {line}: the log ends within a {kind} block", said)

    def test_broken_blocks_are_told(self):
        whole = data("small.allocfreetrace")
        for broken, why in (
            ("tracealloc(0xc000010000, 0x20, main.node)\n\n", "tracealloc without its goroutine"),
            ("tracealloc(0xc000010000, 0x20, main.node)\ngoroutine 1 [running]:\n\n", "tracealloc without a stack"),
            ("tracealloc(0xc0000100\n\n", "a block's first line is not whole"),
            (block(0xC000010000, "0x10000000001"), "tracealloc of more than 2^40 bytes"),
        ):
            _, trace, said = run("record", *OPTIONS, given=2 * broken + whole)
            self.assertEqual(trace, data("small.trace"), why)
            self.assertIn(f"2 blocks of the log were not whole and are left out; the first at line 1: {why}\n", said)

    def test_the_program_writes_in_between(self):
        # Lines of its own between the blocks, between the lines of a block, before a block on one line with it, and bytes that are no UTF-8.
        log = data("small.allocfreetrace")
        own = "hello\n"
        for at in ("runtime.newobject(0xc0", "\t/home/user/main.go:12", "created by runtime.newproc", "tracealloc(0xc000012000", "tracegc()"):
            status, trace, said = run("record", *OPTIONS, given=log.replace(at, own + at, 1))
            self.assertEqual((status, trace), (0, data("small.trace")), at)
            self.assertIn("record: 3 lines of the log are of no block", said, at)
        for glued in ("hello ", "\udcff\udcfe "):
            self.assertEqual(run("record", *OPTIONS, given=log.replace("tracealloc(", glued + "tracealloc("))[1], data("small.trace"))

    def test_the_beginning_of_a_log_is_cut(self):
        log = data("small.allocfreetrace")
        _, trace, said = run("record", *OPTIONS, given=log[log.index("tracealloc(0xc000012000") :])
        self.assertIn("record: 1 freed objects have no allocation in the log", run("record", given=block(16) + "tracegc()\nend tracegc\n\ntracefree(0x20, 0x10)\ngoroutine 0 [idle]:\nruntime.sweepone()\n\t/go/mgcsweep.go:1\n\n")[2])
        self.assertEqual(trace.splitlines()[2:4], ["a 0 100 n 0", "a 1 16 n 1"])

    def test_a_stack_without_end(self):
        # Go prints at most 100 frames, so a block that goes on is not gathered.
        log = "tracealloc(0x10, 0x10)\ngoroutine 1 [running]:\nruntime.mallocgc(0x10, 0x0, 0x1)\n\t/go/malloc.go:1\n" + 1000 * "main.f()\n\t/home/main.go:1\n"
        status, trace, said = run("record", given=log)
        self.assertEqual((status, trace.count("\na ")), (0, 1))
        self.assertRegex(said, "record: 1753 lines of the log are of no block")

    def test_names_with_blanks(self):
        log = (
            "tracealloc(0x10, 0x10)\ngoroutine 1 [running]:\nruntime.mallocgc(0x10, 0x0, 0x0)\n\t/a folder/malloc.go:1 +0x27 fp=0x1 sp=0x2 pc=0x3\n"
            "type..eq.struct { a int; b string }(0x1, 0x2)\n\t<autogenerated>:1 +0x25 fp=0x1\n\n"
        )
        stacks = os.path.join(self.folder.name, "stacks")
        run("record", "--stacks", stacks, given=log)
        self.assertEqual(body(text_of(stacks)), "0\truntime.mallocgc /a folder/malloc.go:1\ttype..eq.struct { a int; b string } <autogenerated>:1\n")
        names = [frames.name_of(frame) for frame in ("runtime.mallocgc /a folder/malloc.go:1", "type..eq.struct { a int; b string } <autogenerated>:1")]
        self.assertEqual(names, ["runtime.mallocgc", "type..eq.struct { a int; b string }"])

    def test_no_log(self):
        status, trace, said = run("record", given="nothing of the kind\n")
        self.assertEqual((status, trace, said), (2, "", "record: standard input: no allocation was found: is this a log of GODEBUG=allocfreetrace=1?\n"))

    def test_values_out_of_range(self):
        for words in (["--chunks", "0"], ["--chunks", "129"], ["--procs", "65"], ["--rate", "-1"], ["--rate", "1_0"], ["--rate", "1073741825"], ["--seed", "18446744073709551616"],
                      ["--goal", "65537"], ["--goal", "x"], ["--distance", "0"], ["--no-such-option"], ["a", "b"]):  # fmt: skip
            status, trace, said = run("record", *words)
            self.assertEqual((status, trace), (2, ""), words)
            self.assertIn("record: error: ", said)

    def test_nothing_is_written_over(self):
        log = self.put("log", data("small.allocfreetrace"))
        new = os.path.join(self.folder.name, "new")
        for words in ([log, "--output", log], [log, "--stacks", log], [log, "--stacks", new, "--output", new], [log, "--program", path_of("small.trace"), "--output", path_of("small.trace")]):
            status, _, said = run("record", *words)
            self.assertEqual((status, said), (2, f"record: {words[-1]} is named twice\n"))
        with open(log) as file:
            self.assertEqual(file.read(), data("small.allocfreetrace"))
        self.assertFalse(os.path.exists(new))

    def limited(self, log, objects=10, marks=100, mark_ends=10, size=10**6, stacks=10):
        """What `record` writes and says where the limits are these."""
        record = module("record")
        limits = {"MOST_OBJECTS": objects, "MOST_MARKS": marks, "MOST_MARK_ENDS": mark_ends, "MOST_BYTES": size, "MOST_STACKS": stacks}
        out = os.path.join(self.folder.name, "trace")
        said = []
        record.say = said.append
        with unittest.mock.patch.multiple(recording, **limits):
            record.main([self.put("log", log), "--output", out, "--keep-last"])
        reset_signals()
        with open(out) as file:
            return file.read(), "\n".join(said)

    def test_limits_end_the_trace(self):
        end = "tracegc()\n\nend tracegc\n\n"
        log = "".join(block(16 * one) for one in range(1, 5)) + end + block(80) + end + block(96).replace("malloc.go:1", "malloc.go:2") + end
        a, header = "a 0 16 n 0\n", "goheap 1\nheap 128 procs 1 rate 1 seed 1 goal 65536\n"
        gc = "gc 4194304\nm 0 %d\n"
        cases = [
            ({}, header + 4 * a + gc % 3 + a + gc % 4 + "a 0 16 n 1\n" + gc % 5 + "end\n", None),
            ({"objects": 5}, header + 4 * a + gc % 3 + a + gc % 4 + "end\n", "objects"),
            ({"marks": 8}, header + 4 * a + gc % 3 + a + "end\n", "marked objects"),
            ({"mark_ends": 1}, header + 4 * a + gc % 3 + a + "end\n", "mark ends"),
            ({"size": len(header) + 4 + 2 * len(a)}, header + 2 * a + "end\n", "bytes"),
            ({"stacks": 1}, header + 4 * a + gc % 3 + a + gc % 4 + "end\n", "stacks"),
        ]
        for limits, trace, limit in cases:
            found, said = self.limited(log, **limits)
            self.assertEqual(found, trace, limits)
            self.assertEqual("the trace ends at the limit of" in said, limit is not None, limits)
            if limit:
                self.assertIn(f"the trace ends at the limit of {limit}; it is whole up to there", said)

    def test_an_interrupt_ends_the_trace(self):
        record = module("record")
        told = []
        record.say = told.append
        lines = data("small.allocfreetrace").splitlines(True)
        at = lines.index("tracegc()\n")

        class Pieces(io.BytesIO):
            """Gives a line at a time; an interrupt comes behind the first mark end."""

            def read1(self, _):
                if len(lines) == 94 - at:
                    signal.raise_signal(signal.SIGINT)
                return lines.pop(0).encode() if lines else b""

        out = os.path.join(self.folder.name, "trace")
        with unittest.mock.patch.object(record, "log_in", lambda _: Pieces()):
            self.assertEqual(record.main(["--output", out, *OPTIONS]), 0)
        reset_signals()
        self.assertEqual(text_of(out).splitlines(), [*data("small.trace").splitlines()[:5], "gc 1000", "m 0 2", "end"])
        self.assertIn("interrupted; the trace ends where the log was then, and is whole", told)

    def test_progress_is_for_terminals(self):
        record = module("record")
        words = [self.put("log", data("small.allocfreetrace")), "--output", os.devnull]
        ours, theirs = pty.openpty()
        for terminal in (True, False):
            error = open(theirs, "w", closefd=False) if terminal else io.StringIO()
            with unittest.mock.patch("sys.stderr", error), unittest.mock.patch.object(running, "TOLD_EVERY", 10):
                record.main(words)
            said = "" if terminal else error.getvalue()
            # A terminal gives what was written in pieces. The last piece of progress clears its line.
            while terminal and "\r\033[K" not in said:
                said += os.read(ours, 10000).decode()
            self.assertEqual("\r94 lines of the log" in said, terminal)
        reset_signals()
        os.close(ours)
        os.close(theirs)

    def test_names_of_frames(self):
        names = ["runtime.(*mcache).refill(0x1, {0x2, 0x3})\n", "main.f[...](0x1)\n", "main.main()\n", "main.push(...)\n"]
        self.assertEqual([golog.function_of(name) for name in names], ["runtime.(*mcache).refill", "main.f[...]", "main.main", "main.push"])


class Impostors(Folder):
    """A program that prints lines as the runtime does, and logs that are packed."""

    OWN = ("tracealloc(0xc000ff0000, 0x20, main.node)\ngoroutine 1 [running]:\nmain.fake()\n\t/home/user/main.go:1\n\n", "tracefree(0xc000010000, 0x20)\n\n",
           "tracefree(0xc000010000, 0x20)\ngoroutine 1 [running]:\nmain.fake()\n\t/home/user/main.go:1\n\n", "tracegc()\nand more\n")  # fmt: skip

    def test_a_block_is_the_runtimes(self):
        log = data("small.allocfreetrace")
        at = log.index("tracefree(0xc000012000")
        for own in self.OWN:
            for text in (own + log, log[:at] + own + log[at:], log.rstrip("\n") + "\n\n" + own):
                status, trace, said = run("record", *OPTIONS, given=text)
                self.assertEqual((status, trace), (0, data("small.trace")), own)
                lines = 2 + sum(not line.isspace() for line in own.splitlines(True))
                self.assertIn(f"record: {lines} lines of the log are of no block, and are passed over as the program's own, 1 of them torn by a block; the first at line 1\n", said)

    def test_packed_logs(self):
        log = data("small.allocfreetrace").encode()
        for name, packed in (("log.gz", gzip.compress(log)), ("log.xz", lzma.compress(log))):
            path = os.path.join(self.folder.name, name)
            for content, expected in ((packed, (0, data("small.trace"))), (packed[:-30], (2, ""))):
                with open(path, "wb") as file:
                    file.write(content)
                status, trace, said = run("record", path, *OPTIONS)
                self.assertEqual((status, trace), expected, said)
            self.assertEqual(said, f"record: {path}: the packed file is cut or damaged\n")
