"""Tests of what a recording leaves out and says: the last mark end, misses, other programs, companions, words."""

import os
import unittest.mock
import zlib

from goheap_tools.cli import recording
from goheap_tools.formats import golog
from goheap_tools.formats.stacks import stack_file, stacks_in
from goheap_tools.tests.testing import Folder, block, body, data, module, path_of, rows, run, text_of

GC = "tracegc()\n\ngoroutine 7 [garbage collection]:\nruntime.gcMarkDone()\n\t/go/mgc.go:1 pc=0x9\n\nend tracegc\n\n"
WAITED = "tracegc()\n\ngoroutine 1 [wait for GC cycle]:\nruntime.GC()\n\t/go/mgc.go:2 pc=0x8\nmain.main()\n\t/m.go:9 pc=0x7\n\nend tracegc\n\n"


def stack(address, function, size=16, type_name=None, goroutine=1, line=1):
    """An allocation by a function, called by main.main, as the log has it."""
    name = f", {type_name}" if type_name else ""
    counter = zlib.crc32(f"{function} {line}".encode())
    return (f"tracealloc({address:#x}, {size:#x}{name})\ngoroutine {goroutine} [running]:\nruntime.mallocgc({size:#x}, 0x0, 0x0)\n\t/go/malloc.go:1 +0x1 fp=0x{address:x} sp=0x2 pc=0x1\n"
            f"{function}({address:#x})\n\t/m.go:{line} +0x1 fp=0x1 sp=0x2 pc={counter:#x}\nmain.main()\n\t/m.go:9 +0x1 fp=0x1 sp=0x2 pc=0x3\n\n")  # fmt: skip


def start(address=0xC000900000, procs=4):
    """The first allocation of a program, in the runtime's start."""
    return (f"tracealloc({address:#x}, 0x20, *runtime.p)\ngoroutine 0 [idle]:\nruntime.mallocgc(0x20, 0x45f5a0, 0x1)\n\t/go/malloc.go:1131 +0x7b1 fp=0x7f sp=0x7e pc=0x40b0f1\n"
            f"runtime.makeslice(0x0?, 0x0?, 0x4?)\n\t/go/slice.go:103 +0x52 fp=0x7f sp=0x7e pc=0x443172\nruntime.procresize({procs:#x})\n\t/go/proc.go:4830 +0x15c fp=0x7f sp=0x7e pc=0x43aafc\n"
            "runtime.schedinit()\n\t/go/proc.go:722 +0x1d6 fp=0x7f sp=0x7e pc=0x431f56\n\n")  # fmt: skip


def free(address, size=16):
    return f"tracefree({address:#x}, {size:#x})\ngoroutine 0 [idle]:\nruntime.sweepone()\n\t/go/mgcsweep.go:1 pc=0x5\n\n"


class LastMarkEnd(Folder):
    """A log that ends in its last sweep: of three objects of `waste` two were still to be freed."""

    def log(self, collection=GC):
        leaks = "".join(stack(0xC000000000 + 16 * one, "main.leak") for one in range(2))
        wastes = "".join(stack(0xC000001000 + 16 * one, "main.waste", line=2) for one in range(3))
        return leaks + wastes + GC + "".join(free(0xC000001000 + 16 * one) for one in range(3)) + wastes + collection + free(0xC000001000)

    def test_it_is_left_out(self):
        status, trace, said = run("record", given=self.log() + stack(0xC000005000, "main.late"))
        self.assertEqual(status, 0)
        self.assertEqual([line.split()[0] for line in trace.splitlines()[2:]], 5 * ["a"] + ["gc", "m"] + 3 * ["a"] + ["end"])
        self.assertEqual(trace.splitlines()[8], "m 0 1")
        self.assertIn("record: mark end 2 is the log's last, and nothing tells that it was swept whole: it is left out, with 1 objects behind it (11.1 %). It would count 4 objects (64B) as alive", said)

    def test_it_is_kept_where_asked_for(self):
        log = self.log()
        _, trace, said = run("record", "--keep-last", given=log)
        # objects 0 and 1 leak; of 5 to 7 the log frees one
        self.assertEqual(trace.splitlines()[-4:], ["gc 4194304", "m 0 1", "m 6 7", "end"])
        self.assertNotIn("left out", said)

    def test_it_is_kept_where_the_program_went_on_behind_it(self):
        # Goroutine 1 waited in runtime.GC for this collection and its sweep, and allocates again.
        swept = self.log(WAITED) + free(0xC000001010) + free(0xC000001020)
        self.assertIn("gc 4194304\nm 0 1\na 0 16 n 2\nend\n", run("record", given=swept + stack(0xC000005000, "main.late"))[1])
        # Another goroutine tells nothing, nor does an allocation within runtime.GC.
        for other in (stack(0xC000005000, "main.late", goroutine=2), stack(0xC000005000, "runtime.GC")):
            self.assertIn("left out, with 1 objects", run("record", given=swept + other)[2])

    def test_a_second_mark_end_tells_of_the_first(self):
        _, trace, said = run("record", given=self.log() + GC)
        self.assertEqual(trace.count("gc "), 2)
        self.assertIn("mark end 3 is the log's last", said)

    def test_a_trace_without_a_mark_end_says_what_to_do(self):
        said = run("record", given=stack(16, "main.f") + GC)[2]
        self.assertIn("record: the trace has no mark end, so nothing tells what stays alive: run the program with GOGC=20, or call runtime.GC() in it, twice at the end\n", said)
        stacks, trace = os.path.join(self.folder.name, "stacks"), os.path.join(self.folder.name, "trace")
        run("record", "--stacks", stacks, "--output", trace, given=stack(16, "main.f"))
        status, _, said = run("leaks", "--trace", trace, "--stacks", stacks)
        self.assertEqual((status, said), (2, f"leaks: {trace}: there was no mark end, so nothing tells what stays alive: run the program with GOGC=20, or call runtime.GC() in it, twice at the end, and record it again\n"))


class OtherMarkEnds(Folder):
    # Stack 7 has 8, 40 and 16 bytes in use at the mark ends 1 to 3, stack 8 has 8 at each; what did not change has no line before the last.
    EACH = "p 1 7 8 1 0\np 1 8 8 1 0\np 2 7 8 5 0\np 3 7 8 5 3\np 3 8 8 1 0\nend\n"

    def heads(self, *words):
        status, table, said = run("leaks", "-", *words, given=self.EACH)
        self.assertEqual((status, said), (0, ""))
        return table.splitlines()[0].split(";")[0], [row[0] for row in rows(table)[3:]]

    def test_any_mark_end(self):
        self.assertEqual(self.heads(), ("Mark end 3: 24B in use, 48B allocated", ["16B", "8B"]))
        self.assertEqual(self.heads("--at", "1"), ("Mark end 1 of 3: 16B in use, 16B allocated", ["8B", "8B"]))
        self.assertEqual(self.heads("--at", "2"), ("Mark end 2 of 3: 48B in use, 48B allocated", ["40B", "8B"]))
        self.assertEqual(self.heads("--at", "3"), self.heads())

    def test_the_peak(self):
        self.assertEqual(self.heads("--peak"), ("Mark end 2 of 3: 48B in use, 48B allocated", ["40B", "8B"]))

    def test_what_there_is_not(self):
        self.assertEqual(run("leaks", "-", "--at", "4", given=self.EACH)[2], "leaks: there are mark ends 1 to 3, and no 4\n")
        for words in (["--at", "2"], ["--peak"]):
            self.assertEqual(run("leaks", "-", *words, given="p 3 7 8 5 3\nend\n")[2], "leaks: the report has the profile of mark end 3 alone: make it with `goheap run --each`\n")


class Misses(Folder):
    def test_the_table_says_how_many_found_no_room(self):
        # Object 1 is missed: a large one of 5 pages; object 2 of 24 bytes.
        given = "o 0 0xc000000000\no 1 miss 1\no 2 miss 2\nj 0 0 take 0 1 6\nj 1 0 miss 5 1\nj 2 0 miss 1 7\ns 1 0 1 0\nt 3 1 0\np 1 7 24 1 0\nend\n"
        status, table, said = run("leaks", "-", given=given)
        self.assertEqual((status, table.splitlines()[0].split(",")[0]), (0, "Mark end 1: 24B in use"))
        self.assertEqual(said, "leaks: 2 of 3 objects (40.02kB) found no room in the region, and are counted nowhere: the table is too low (--trace without a report counts them too)\n")

    def test_record_says_once_that_the_region_is_passed(self):
        # Each of the objects has 1 MiB; the fifth passes a chunk, and so does the sixth.
        log = "".join(stack(0xC000000000 + (one << 20), "main.f", 1 << 20) for one in range(6))
        for words, what in ((["--chunks", "1"], "leave --chunks 1 out, or give more, up to 128"), ([], None)):
            said = run("record", *words, given=log)[2]
            self.assertEqual(said.count("pass the region of 4 MiB at line 37 of the log"), 1 if what else 0)
            self.assertIn(what or "", said)
        record, told = module("record"), []
        record.say = told.append
        with unittest.mock.patch.object(recording, "MOST_CHUNKS", {1: 1, 3: 1}):
            record.main([self.put("log", log), "--output", os.devnull])
        self.assertIn("--chunks 1 is the most that a trace may have", "\n".join(told))

    def test_the_region_is_as_large_as_the_log_needs(self):
        # 40 MiB were in use at most; a trace of more chunks than today's is for a program that reads one.
        log = "".join(stack(0xC000000000 + (one << 22), "main.f", 1 << 22) for one in range(10)) + free(0xC000000000, 1 << 22)
        record = module("record")
        record.say = lambda _: None
        out = os.path.join(self.folder.name, "trace")
        with unittest.mock.patch.multiple(recording, USUAL_CHUNKS=2, MOST_CHUNKS={1: 100}):
            record.main([self.put("log", log), "--output", out])
        self.assertEqual(text_of(out).splitlines()[1], "heap 20 procs 1 rate 1 seed 1 goal 65536")


class FromAMarkEnd(Folder):
    def test_the_objects_alive_come_first(self):
        log = (stack(16, "main.a", 32) + stack(48, "main.b", 48) + stack(96, "main.c", 64) + GC + free(48, 48) + stack(48, "main.d", 48)
               + GC + free(96, 64) + stack(96, "main.e", 64) + stack(160, "main.f", 80) + GC + free(96, 64) + GC)  # fmt: skip
        stacks = os.path.join(self.folder.name, "stacks")
        whole = run("record", given=log)[1]
        self.assertEqual([line for line in whole.splitlines() if line[0] == "m"], ["m 0 0", "m 2 2", "m 0 0", "m 3 3", "m 0 0", "m 3 3", "m 5 5"])
        trace = run("record", "--from-mark-end", "2", "--stacks", stacks, given=log)[1]
        # At mark end 2 main.a's object of 32 bytes and main.d's of 48 are alive; then come those of 64 and 80, of which mark end 3 keeps one.
        self.assertEqual([line.split()[:3] for line in trace.splitlines()[2:]],
                         [["a", "0", "32"], ["a", "0", "48"], ["gc", "4194304"], ["m", "0", "1"], ["a", "0", "64"], ["a", "0", "80"], ["gc", "4194304"], ["m", "0", "1"], ["m", "3", "3"], ["end"]])  # fmt: skip
        read = stack_file(stacks)
        self.assertEqual(read.header["from mark end"], "2")
        numbers = [int(line.split()[4]) for line in trace.splitlines() if line.startswith("a ")]
        self.assertEqual([read.frames[number][1].split()[0] for number in numbers], ["main.a", "main.d", "main.e", "main.f"])
        self.assertEqual(run("record", "--from-mark-end", "1", given=log)[1].count("gc "), 3)

    def test_a_mark_end_that_there_is_not(self):
        for at, why in (("3", "the log has 1 mark ends, so that no trace begins at mark end 3"),
                        ("1", "mark end 1 is the log's last, and nothing tells that it was swept whole: begin at an earlier one, or say --keep-last")):  # fmt: skip
            self.assertEqual(run("record", "--from-mark-end", at, given=stack(16, "main.a") + GC), (2, "", f"record: {why}\n"))
        self.assertEqual(run("record", "--from-mark-end", "1", "--keep-last", given=stack(16, "main.a") + GC)[1].splitlines()[2:], ["a 0 16 n 0", "gc 4194304", "m 0 0", "end"])


class SecondPrograms(Folder):
    def test_a_second_start_ends_the_trace(self):
        first = start() + stack(16, "main.a") + GC + stack(48, "main.b") + GC
        for second in (start() + stack(64, "main.c") + GC, start().replace("goroutine 0 [idle]:\n", "")):
            for words in ([], ["--keep-last"]):
                _, trace, said = run("record", *words, given=first + second)
                self.assertEqual(trace, run("record", *words, given=first)[1])
                line = first.count("\n") + 1
                self.assertIn(f"record: a second program starts at line {line} of the log (what a program starts inherits GODEBUG); the trace is of the first one up to there: record each by itself\n", said)
        self.assertNotIn("second program", run("record", given=first)[2])

    def test_two_that_start_at_once(self):
        self.assertIn(f"a second program starts at line {start().count(chr(10)) + 1} of the log", run("record", given=start() + start())[2])

    def test_more_processors_later_are_no_second_program(self):
        # runtime.GOMAXPROCS makes processors too, but not in the runtime's start.
        log = start() + stack(16, "main.a") + start(0xC000910000).replace("runtime.schedinit()", "runtime.startTheWorldWithSema(0x1)").replace("pc=0x431f56", "pc=0x431f57")
        self.assertNotIn("second program", run("record", given=log)[2])


class Defaults(Folder):
    def test_the_second_line(self):
        for procs, told in ((4, 4), (1, 1), (200, 64)):
            log = start(procs=procs) + stack(16, "main.a", goroutine=7) + stack(32, "main.b", goroutine=8)
            trace = run("record", given=log)[1].splitlines()
            self.assertEqual(trace[1], f"heap 128 procs {told} rate 1 seed 1 goal 65536")
            self.assertEqual([line.split()[1] for line in trace[3:5]], [str(7 % told), str(8 % told)])
        self.assertEqual(run("record", "--procs", "2", given=start())[1].splitlines()[1].split()[3], "2")

    def test_what_the_stacks_tell(self):
        stacks = os.path.join(self.folder.name, "stacks")
        log = start() + stack(16, "main.a", type_name="main.node") + stack(32, "main.a", 40, type_name="[5]int") + GC + stack(80, "main.b") + GC
        trace = run("record", "--stacks", stacks, "--rate", "100", given=log)[1]
        read = stack_file(stacks)
        told = {"rate": "100", "chunks": "128", "procs": "4", "objects": "4", "mark ends": "1", "behind": "1", "stacks": "4", "slots": "16:2 32:1 48:1"}
        self.assertEqual({name: read.header.get(name) for name in told}, told)
        self.assertEqual([read.types[number] for number in range(4)], ["*runtime.p", "main.node", "[5]int", ""])
        self.assertEqual(text_of(stacks).splitlines()[0], "# goheap stacks 2")
        self.assertEqual(len(trace.splitlines()), 9)

    def test_old_stacks_are_read(self):
        read = stack_file(path_of("small.stacks"))
        self.assertEqual((read.header, read.types, stacks_in(path_of("small.stacks"))), ({}, {}, read.frames))
        new = self.put("new", "# goheap stacks 2\n# rate\t1\n# strange\tx\n" + data("small.stacks").replace("\truntime.mallocgc", "\tmain.node\truntime.mallocgc"))
        self.assertEqual(stacks_in(new), read.frames)
        self.assertEqual(body(text_of(new)), data("small.stacks"))
        self.assertIn("the form of this stacks file is not read here", run("leaks", "-", "--stacks", self.put("newer", "# goheap stacks 3\n"), given="end\n")[2])


class Companions(Folder):
    def setUp(self):
        super().setUp()
        self.stacks, self.trace = (os.path.join(self.folder.name, name) for name in ("stacks", "trace"))
        log = stack(16, "main.a") + stack(48, "main.b", 48) + GC + stack(112, "main.c", 48) + GC
        self.assertEqual(run("record", "--rate", "24", "--stacks", self.stacks, "--output", self.trace, given=log)[0], 0)

    # Objects of 16, 48 and 48 bytes; at rate 24 those of 48 bytes are all sampled.
    REPORT = "o 0 0xc000000000\no 1 0xc000002000\no 2 0xc000002030\nj 0 0 take 0 1 5\nj 1 0 take 1 1 11\ns 1 0 1 0\ns 1 1 1 0\nt 2 1 0\nt 5 2 0\np 1 1 48 1 0\nend\n"

    def test_another_recording_is_refused(self):
        fewer = self.REPORT.replace("o 2 0xc000002030\n", "").replace("t 5 2 0", "t 5 1 0")
        other = self.REPORT.replace("t 2 1 0\nt 5 2 0", "t 2 2 0\nt 5 1 0")
        for given, why in ((fewer, "2 objects, and by the stacks 3"), (other, "2 objects in slots of 16 bytes, and by the stacks 1")):
            for tool in ("leaks", "picture"):
                self.assertEqual(run(tool, "-", "--stacks", self.stacks, given=given), (2, "", f"{tool}: standard input and {self.stacks} are of two recordings: {why}\n"))
        for tool, words in (("leaks", ["--trace", path_of("small.trace")]), ("explain", [path_of("small.trace"), "-"])):
            said = run(tool, *words, "--stacks", self.stacks, given="end\n")[2]
            self.assertEqual(said, f"{tool}: {path_of('small.trace')} and {self.stacks} are of two recordings: 6 objects, and by the stacks 3\n")
        status, _, said = run("compare", self.put("log", ""), path_of("small.trace"), path_of("kinds.report"), "--stacks", self.stacks)
        self.assertEqual((status, said), (2, f"compare: {path_of('small.trace')} and {self.stacks} are of two recordings\n"))

    def test_the_rate_is_taken_from_the_stacks(self):
        table = lambda *words: run("leaks", "-", "--stacks", self.stacks, *words, given=self.REPORT)
        # 48 bytes at rate 24: 1 / (1 - e^-2) of 48 bytes is 55.5.
        self.assertEqual(rows(table()[1])[0], "Mark end 1: 56B in use, 56B allocated; estimated from the objects sampled at rate 24".split())
        self.assertEqual(rows(table("--scale", "0")[1])[0], "Mark end 1: 48B in use, 48B allocated; the objects sampled at rate 24, as they are counted".split())
        self.assertEqual(table("--scale", "48")[2].splitlines()[0], f"leaks: {self.stacks} says that the rate was 24; it is taken as 48, as asked for")
        self.assertIn("33 % of the objects (1 of 3) came behind the last mark end, and are in no count", table()[2])


class Words(Folder):
    def test_notes_only_above_one_in_a_thousand(self):
        frees = GC + "".join(free(16 * one) for one in range(1, 1000))
        log = "".join(stack(16 * one, "main.f") for one in range(1, 1000)) + frees + GC
        one = log.replace(GC, GC + free(0xC00000), 1)
        two = log.replace(GC, GC + free(0xC00000) + free(0xD00000), 1)
        told = "freed objects have no allocation in the log"
        self.assertNotIn(told, run("record", given=one)[2])
        self.assertIn(told, run("record", given=two)[2])
        self.assertIn("1 " + told, run("record", "--verbose", given=one)[2])

    def test_a_log_of_another_go_names_it(self):
        for version, is_read in ((b"go1.22.3", False), (b"go1.21.13", True)):
            information = b"\xff Go buildinf:\x08\x02" + bytes(16) + bytes([len(version)]) + version
            path = os.path.join(self.folder.name, "program")
            with open(path, "wb") as file:
                file.write(b"\x7fELF\x02\x01" + bytes(58) + information)
            said = run("record", "--program", path, given="nothing\n")[2]
            self.assertEqual("program was built with go1.22.3; logs of go1.19 to go1.21 are read" in said, not is_read)
            stacks = os.path.join(self.folder.name, "stacks")
            said = run("record", "--program", path, "--stacks", stacks, given=block(16))[2]
            self.assertEqual("program was built with go1.22.3; logs of go1.19 to go1.21 are read, and others perhaps wrongly" in said, not is_read)
            self.assertEqual(stack_file(stacks).header["go"], version.decode())

    def test_no_room_names_the_file(self):
        stacks = os.path.join(self.folder.name, "stacks")
        status, _, said = run("record", "--output", "/dev/full", "--stacks", stacks, given=block(16))
        self.assertEqual((status, said), (2, "record: /dev/full: No space left on device\n"))
        self.assertEqual(os.listdir(self.folder.name), [])


class Parsing(Folder):
    """A block whose stack was seen before is not read line by line; what it says is the same."""

    def events(self, text, size):
        return list(golog.events(text[at : at + size] for at in range(0, len(text), size)))

    def test_a_stack_is_read_once(self):
        log = 500 * (stack(16, "main.a") + stack(32, "main.b") + free(16))
        with unittest.mock.patch.object(golog, "frame_of", side_effect=golog.frame_of) as frame, unittest.mock.patch.object(golog, "function_of", side_effect=golog.function_of) as function:
            events = list(golog.events([log]))
        self.assertEqual(len(events), 1500)
        # runtime.mallocgc, main.main, main.a and main.b, each once
        self.assertEqual((frame.call_count, function.call_count), (4, 4))
        self.assertEqual(events[0][1:], events[-3][1:])
        self.assertEqual([event.line for event in events[:4]], [1, 10, 19, 24])

    def test_blocks_are_read_alike_however_they_come(self):
        own = "hello\n"
        log = 2 * (data("small.allocfreetrace") + start() + stack(16, "main.a") + own + stack(16, "main.a").replace("\t/m.go:9", own + "\t/m.go:9") + free(16).replace("\t", own + "\t")
                   + stack(32, "main.a", 24, "[3]int", 5).replace("0x18", "0x10000000001") + GC + "tracealloc(0x10\n" + stack(16, "main.a")[:60] + "\n" + WAITED)  # fmt: skip
        lines = list(golog.events(log.splitlines(True)))
        for size in (1, 7, 100, 5000, 10**6):
            self.assertEqual(self.events(log, size), lines)
        # No stack is known in the first half, so it is read line by line; in the second half they are.
        half = len(lines) // 2
        shift = log.count("\n") // 2
        self.assertEqual([event._replace(line=event.line + shift) for event in lines[:half]], lines[half:])

    def test_stacks_that_only_inlined_frames_tell_apart(self):
        # The last frame was inlined into one that the log leaves out, so its counter is not there.
        inlined = lambda line: stack(16, "main.a").replace("main.main()\n\t/m.go:9 +0x1 fp=0x1 sp=0x2 pc=0x3\n", f"main.main(...)\n\t/m.go:{line}\n...additional frames elided...\n")
        self.assertEqual([event.places[-1] for event in golog.events([inlined(1) + inlined(2) + inlined(1)])], ["/m.go:1", "/m.go:2", "/m.go:1"])

    def test_a_wrong_log_is_told_before_the_trace_is_read(self):
        lines = "goheap 1\nheap 1 procs 1 rate 0 seed 1 goal 512\na 0 16 n 0\na 0 32 n 0\n"
        log, trace = self.put("log", block(16) + block(32)), self.put("trace", lines + 2000 * "a 0 16 n 0\n" + "no line\n")
        self.assertEqual(run("compare", log, trace, "no such report")[2], "compare: object 1 of the trace has 32 bytes, in the log 16: it was recorded from another log\n")
