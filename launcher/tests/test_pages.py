"""The man page and the completions, which are made of the words of `help`."""
import os
import shutil
import subprocess
import sys
import unittest

from stage import ROOT, Stage, read

PAGES = f"{ROOT}/launcher/pages"
WORDS = ["run", "watch", "check", "heap", "demo", "gen", "classes", "--build", "--version", "help"]


class Pages(Stage):
    def made(self) -> str:
        """A folder with the pages as they are made now."""
        subprocess.run([sys.executable, f"{self.top}/launcher/pages.py", f"{self.room}/made"], check=True)
        return f"{self.room}/made"

    def test_they_are_those_that_the_words_make(self):
        made = self.made()
        self.assertEqual(sorted(os.listdir(made)), sorted(os.listdir(PAGES)))
        for name in os.listdir(made):
            self.assertEqual(read(f"{made}/{name}"), read(f"{PAGES}/{name}"), f"{name} is stale: run launcher/pages.py")

    def test_a_word_that_is_told_otherwise_makes_other_pages(self):
        words = read(f"{self.top}/launcher/words.txt").replace("--each ", "--all-of-them ")
        with open(f"{self.top}/launcher/words.txt", "w", encoding="utf-8") as file:
            file.write(words)
        made = self.made()
        for name in os.listdir(made):
            self.assertIn("all\\-of\\-them" if name == "goheap.1" else "--all-of-them", read(f"{made}/{name}"))

    def completed(self, *words: str) -> list[str]:
        """What bash offers for the last of these words."""
        script = f'cd "$1" && source {PAGES}/goheap.bash && shift && COMP_WORDS=("$@") COMP_CWORD=$(($# - 1)) && _goheap && printf "%s\\n" "${{COMPREPLY[@]}}"'
        ran = subprocess.run(["bash", "-c", script, "bash", f"{self.top}/examples", "goheap", *words], capture_output=True, text=True, check=True)
        self.assertEqual(ran.stderr, "")
        return ran.stdout.split()

    def test_bash_completes_words_options_and_files(self):
        self.assertEqual(self.completed(""), WORDS)
        self.assertEqual(self.completed("c"), ["check", "classes"])
        self.assertEqual(self.completed("run", "--"), ["--each", "--background="])
        self.assertEqual(self.completed("check", "--p"), ["--pieces="])
        self.assertEqual(self.completed("run", "leak."), self.completed("check", "leak.trace", "leak."))
        self.assertEqual(sorted(self.completed("run", "leak.")), ["leak.report", "leak.trace"])
        self.assertEqual(sorted(self.completed("gen", "1", "2", "-o", "leak.")), ["leak.report", "leak.trace"])
        self.assertEqual(self.completed("gen", "leak."), [])
        self.assertEqual(self.completed("help", "h"), ["heap", "help"])

    def test_the_tools_are_told_and_their_options_completed(self):
        tools = sorted(name for name in os.listdir(f"{ROOT}/recorder") if name not in ("test", "install-go", "install-browser") and os.access(f"{ROOT}/recorder/{name}", os.X_OK) and os.path.isfile(f"{ROOT}/recorder/{name}"))
        told = [line.split(":")[0].removeprefix("tool ") for line in read(f"{ROOT}/launcher/words.txt").splitlines() if line.startswith("tool ")]
        self.assertEqual(sorted(told), tools)
        man = read(f"{PAGES}/goheap.1")
        for name in tools:
            self.assertIn(f".B {name}\n", man)
        script = 'cd "$1" && source "$2" && COMP_WORDS=(recorder/goroutines --f) COMP_CWORD=1 && _goheap_tool && printf "%s\\n" "${COMPREPLY[@]}" && complete -p recorder/goroutines'
        ran = subprocess.run(["bash", "-c", script, "bash", ROOT, f"{PAGES}/goheap.bash"], capture_output=True, text=True, check=True)
        self.assertEqual(ran.stdout.splitlines(), ["--frames", "complete -o default -F _goheap_tool recorder/goroutines"])

    @unittest.skipUnless(shutil.which("zsh"), "there is no zsh here")
    def test_zsh_reads_its_completion(self):
        subprocess.run(["zsh", "-n", f"{PAGES}/_goheap"], check=True)

    @unittest.skipUnless(shutil.which("man"), "there is no man here")
    def test_the_man_page_says_what_help_says(self):
        how = {**os.environ, "MANWIDTH": "160", "MAN_KEEP_FORMATTING": "", "LC_ALL": "C.UTF-8"}
        ran = subprocess.run(["man", "--warnings=w", "-l", f"{PAGES}/goheap.1"], env=how, capture_output=True, text=True, check=True)
        self.assertEqual(ran.stderr, "")
        for word in WORDS:
            self.assertRegex(ran.stdout, rf"(?m)^ +goheap {word}\b")
        self.assertRegex(ran.stdout, r"(?m)^ +4 +the report is refused$")
