"""What the launcher does around a program that is built: its words, the files that they name, and where the answer goes."""
import lzma
import os
import subprocess

from stage import Stage, put, read

TEXT = "goheap 1\nheap 1 procs 1 rate 0 seed 1 goal 512\nend\n"


class Streams(Stage):
    def setUp(self):
        super().setUp()
        self.put_program()
        self.trace, self.report = self.example("leak.trace"), self.example("leak.report")

    def piped(self, words: list[str], reader: list[str]) -> tuple[int, str]:
        """The status and the standard error of the launcher before a reader of a pipe."""
        with open(f"{self.room}/errors", "w", encoding="utf-8") as errors:
            run = subprocess.Popen([f"{self.top}/goheap", *words], env=self.environment, stdin=subprocess.DEVNULL, stdout=subprocess.PIPE, stderr=errors)
            subprocess.run(reader, stdin=run.stdout, stdout=subprocess.DEVNULL, check=True)
            run.stdout.close()
            status = run.wait()
        return status, read(f"{self.room}/errors")

    def test_words_go_to_the_program_unchanged(self):
        for words in ("run", "run --background 3", "walk -o x", "run --background", "check --pieces=4", "classes", "run -o"):
            self.assertEqual(self.call(*words.split(), given=TEXT), (0, f"words {words}\n{TEXT}", ""))
        self.assertEqual(self.call("", given=TEXT)[1], f"words \n{TEXT}")
        self.assertEqual(self.noted(), [])

    def test_the_programs_status_and_error_stay(self):
        self.assertEqual(self.call("run", "--each", given=TEXT), (3, f"words run --each\n{TEXT}", "goheap: trace line 2: malformed\n"))

    def test_a_file_becomes_the_standard_input(self):
        text = read(self.trace)
        self.assertEqual(self.call("run", self.trace), (0, f"words run\n{text}", ""))
        self.assertEqual(self.call("run", self.trace, "--background", "0"), (0, f"words run --background 0\n{text}", ""))
        self.assertEqual(self.call("watch", "2", self.trace), (0, f"words watch 2\n{text}", ""))
        self.assertEqual(self.call("run", "-", given=TEXT), (0, f"words run\n{TEXT}", ""))

    def test_a_trace_and_a_report_are_read_one_behind_the_other(self):
        both = read(self.trace) + read(self.report)
        for words in (("check",), ("check", "--pieces=4"), ("heap",)):
            self.assertEqual(self.call(*words, self.trace, self.report), (0, f"words {' '.join(words)}\n{both}", ""))
        self.assertEqual(self.call("check", self.trace, "-", given=read(self.report)), (0, f"words check\n{both}", ""))
        self.assertEqual(self.call("check", "-", self.report, given=read(self.trace)), (0, f"words check\n{both}", ""))
        self.assertEqual(self.call("check", put(f"{self.room}/both", both)), (0, f"words check\n{both}", ""))

    def test_more_files_than_a_word_takes_are_the_programs_words(self):
        self.assertEqual(self.call("run", self.trace, self.trace)[1], f"words run {self.trace} {self.trace}\n")
        self.assertEqual(self.call("check", "-", "-")[1], "words check - -\n")

    def test_a_pipe_is_read_as_a_file(self):
        script = f'"{self.top}/goheap" run <(cat "{self.trace}")'
        ran = subprocess.run(["bash", "-c", script], env=self.environment, capture_output=True, text=True, check=False)
        self.assertEqual(ran.stdout, f"words run\n{read(self.trace)}")

    def test_the_answer_goes_whole_into_a_file(self):
        target = put(f"{self.room}/answer", "before")
        os.chmod(target, 0o640)
        self.assertEqual(self.call("run", "-o", target, self.trace), (0, "", ""))
        self.assertEqual(read(target), f"words run\n{read(self.trace)}")
        self.assertEqual(os.stat(target).st_mode & 0o777, 0o640)
        self.assertEqual(self.call("run", f"--output={self.room}/other", self.trace)[0], 0)
        self.assertEqual(read(f"{self.room}/other"), read(target))
        self.assertEqual([name for name in os.listdir(self.room) if "part" in name], [])

    def test_what_is_no_whole_answer_leaves_the_file_as_it_was(self):
        target = put(f"{self.room}/answer", "before")
        status, out, errors = self.call("run", "--each", "-o", target, self.trace)
        self.assertEqual((status, out, errors), (3, "", "goheap: trace line 2: malformed\n"))
        self.assertEqual(read(target), "before")
        self.assertEqual([name for name in os.listdir(self.room) if "part" in name], [])

    def test_a_device_is_written_as_it_is(self):
        self.assertEqual(self.call("gen", "1", "2", "-o", "/dev/null"), (0, "", ""))
        self.assertEqual(self.call("gen", "1", "2", "-o", "/dev/full"), (6, "", "goheap: write fault\n"))

    def test_a_file_that_cannot_be_written_is_told(self):
        for target, why in ((self.room, "a folder"), (f"{self.room}/none/answer", "there is no such folder")):
            self.assertEqual(self.call("classes", "-o", target), (6, "", f"goheap: {target}: {why}\n"))

    def test_a_file_that_cannot_be_read_is_told(self):
        self.assertEqual(self.call("run", f"{self.room}/none"), (5, "", f"goheap: {self.room}/none: there is no such file\n"))
        self.assertEqual(self.call("check", self.trace, self.room), (5, "", f"goheap: {self.room}: a folder\n"))

    def test_a_packed_file_is_told_with_the_way_out(self):
        packed = f"{self.room}/a.xz"
        with lzma.open(packed, "wb") as file:
            file.write(TEXT.encode())
        for front, by in ((None, "xz"), (b"\x1f\x8b\x08\x00", "gzip"), (b"\x28\xb5\x2f\xfd\x04", "zstd"), (b"BZh9", "bzip2")):
            if front:
                with open(packed, "wb") as file:
                    file.write(front + bytes(100))
            for words, status in ((("run", packed), 3), (("check", self.trace, packed), 4)):
                self.assertEqual(self.call(*words), (status, "", f"goheap: {packed}: packed by {by}; {by} -dc {packed} >FILE unpacks it\n"))

    def test_one_kind_of_text_in_the_place_of_another_is_told(self):
        log = put(f"{self.room}/log", "tracealloc(0xc000010000, 0x10, int)\n")
        rows = (
            (("run", self.report), 3, f"{self.report}: a report, and a trace is wanted here; goheap check TRACE {self.report} judges it"),
            (("check", self.report, self.trace), 3, f"{self.report}: a report, and a trace is wanted here; the trace comes first"),
            (("check", self.trace, self.trace), 4, f"{self.trace}: a trace, and a report is wanted here; goheap run {self.trace} makes a report of it"),
            (("watch", "1", log), 3, f"{log}: a log, and a trace is wanted here; recorder/record {log} makes a trace of it"),
        )
        for words, status, said in rows:
            self.assertEqual(self.call(*words), (status, "", f"goheap: {said}\n"))

    def test_of_a_closed_pipe_the_status_tells_alone(self):
        self.assertEqual(self.piped(["gen", "1", "2"], ["head", "-n", "1"]), (6, ""))
        put(self.trace, TEXT + "x" * 1000000)
        self.assertEqual(self.piped(["run", self.trace], ["head", "-n", "1"]), (6, ""))

    def test_a_write_that_fails_elsewhere_is_told(self):
        with open("/dev/full", "w", encoding="utf-8") as full:
            ran = subprocess.run([f"{self.top}/goheap", "gen", "1", "2"], env=self.environment, stdout=full, stderr=subprocess.PIPE, text=True, check=False)
        self.assertEqual((ran.returncode, ran.stderr), (6, "goheap: write fault\n"))

    def test_other_faults_are_told_before_a_pipe_ends(self):
        self.assertEqual(self.piped(["run", "--each"], ["cat"]), (3, "goheap: trace line 2: malformed\n"))
