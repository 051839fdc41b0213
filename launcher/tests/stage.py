"""What the launcher's tests have in common: a checkout of its files alone, with a toolchain and a program that are played."""
import os
import pty
import select
import shutil
import subprocess
import tempfile
import time
import unittest

ROOT = os.path.dirname(os.path.dirname(os.path.dirname(os.path.abspath(__file__))))

# Plays rt: notes its words, and says and makes what rt would. FAILS has the name of a crate that is not proved, SLOW the seconds that a call
# takes, ENDS how a run ended, and ANSWERS how many bytes are answered.
PLAYED = """#!/usr/bin/env bash
echo "$(basename "$PWD") $*" >>"$NOTES"
case "$1" in
version) echo 'played-kit logic 1' ;;
try)
  cat >"$NOTES.input"
  [ -z "${SLOW-}" ] || { echo "$BASHPID" >"$NOTES.pid"; sleep "$SLOW"; }
  case ${ENDS-ended} in
  hang) printf 'checked: hang\\nrun=no-answer runners=1 proved=no\\n' >&2; exit 6 ;;
  refused) printf 'error[E0425]: cannot find value\\nrun=none proved=no\\n' >&2; exit 1 ;;
  esac
  [ -z "${ANSWERS-}" ] && echo "an answer" || head -c "$ANSWERS" /dev/zero
  echo "goheap: a word of the program" >&2
  printf 'rt: a word of the toolchain\\nchecked: ended status=3\\nraces: not looked for\\n\\nrun=ended status=3 runners=1 races=unchecked proved=no\\n' >&2
  exit 3 ;;
all)
  for crate in */; do
    [ "$crate" = "${FAILS-}/" ] && { echo "error: not proved"; exit 1; }
    mkdir -p "$crate/out"
    echo "== ${crate%/}"
    [ -z "${SLOW-}" ] || { echo "$BASHPID" >"$NOTES.pid"; sleep "$SLOW"; }
  done ;;
run)
  cat >/dev/null
  echo "rt: proved, and linked"
  mkdir -p out
  printf '#!/usr/bin/env bash\\necho "the program: $*"\\nexit 5\\n' >out/goheap
  chmod +x out/goheap ;;
esac
"""

# Plays the program: says its words and what it reads; writes a megabyte for `gen`, refuses what has `--each`, and tells a write that fails as
# the program does.
PROGRAM = """#!/usr/bin/env python3
import os, sys
words = [os.fsencode(it) for it in sys.argv[1:]]
text = b"line\\n" * 200000 if words[0] == b"gen" else b"words " + b" ".join(words) + b"\\n" + sys.stdin.buffer.read()
try:
    while text:
        text = text[os.write(1, text):]
except OSError:
    print("goheap: write fault", file=sys.stderr)
    sys.exit(6)
if b"--each" in words:
    print("goheap: trace line 2: malformed", file=sys.stderr)
    sys.exit(3)
"""


def put(path: str, text: str, is_program: bool = False) -> str:
    os.makedirs(os.path.dirname(path), exist_ok=True)
    with open(path, "w", encoding="utf-8") as file:
        file.write(text)
    if is_program:
        os.chmod(path, 0o755)
    return path


def read(path: str) -> str:
    with open(path, encoding="utf-8") as file:
        return file.read()


class Stage(unittest.TestCase):
    """A test on such a checkout, `top`, in a folder of its own, `room`."""

    def setUp(self) -> None:
        self.room = tempfile.mkdtemp()
        self.addCleanup(shutil.rmtree, self.room)
        self.top = os.path.join(self.room, "top")
        os.makedirs(self.top)
        shutil.copytree(f"{ROOT}/launcher", f"{self.top}/launcher", ignore=shutil.ignore_patterns("__pycache__"))
        for name in ("goheap", "crates.txt", "HANDLES", "docs/gate.md", "crates/commands/src/refusals.rt", *self.examples()):
            os.makedirs(os.path.dirname(f"{self.top}/{name}"), exist_ok=True)
            shutil.copy2(f"{ROOT}/{name}", f"{self.top}/{name}")
        put(f"{self.room}/bin/rt", PLAYED, True)
        self.source = put(f"{self.top}/crates/goheap/src/main.rt", "fn main() {}\n")
        self.program = f"{self.top}/crates/goheap/out/goheap"
        for name in [line.split(":")[0].split()[0] for line in read(f"{ROOT}/crates.txt").splitlines() if ":" in line and line[0] != "#"]:
            put(f"{self.top}/crates/{name}/src/part.rt", "")
        self.notes = f"{self.room}/notes"
        self.caches = f"{self.room}/caches/goheap"
        self.environment = {**os.environ, "PATH": f"{self.room}/bin:{os.environ['PATH']}", "XDG_CACHE_HOME": f"{self.room}/caches", "NOTES": self.notes}

    def examples(self) -> list[str]:
        return [f"examples/{name}" for name in ("one-object.trace", "leak.trace", "leak.report")]

    def example(self, name: str) -> str:
        return f"{self.top}/examples/{name}"

    def put_program(self, age: float = -1, text: str = PROGRAM) -> None:
        """A built program so many seconds old."""
        put(self.program, text, True)
        os.utime(self.program, (time.time() - age, time.time() - age))

    def call(self, *words: str, given: str = "", **more: str) -> tuple[int, str, str]:
        ran = subprocess.run([f"{self.top}/goheap", *words], input=given, env={**self.environment, **more}, capture_output=True, text=True, check=False)
        return ran.returncode, ran.stdout, ran.stderr

    def begin(self, *words: str, **more: str) -> subprocess.Popen:
        """Starts the launcher in a session of its own, as a terminal does with what it runs."""
        run = subprocess.Popen(
            [f"{self.top}/goheap", *words], env={**self.environment, **more}, start_new_session=True,
            stdin=subprocess.DEVNULL, stdout=subprocess.PIPE, stderr=subprocess.PIPE, text=True,
        )
        self.addCleanup(run.communicate, timeout=30)
        return run

    def shown(self, *words: str, wanted: str, **more: str) -> str:
        """Starts the launcher with standard error on a terminal, and ends it when that shows what is wanted. Returns what was shown."""
        ours, theirs = pty.openpty()
        text = ""
        how = {"env": {**self.environment, **more}, "stdin": subprocess.DEVNULL, "stdout": subprocess.DEVNULL, "stderr": theirs}
        with subprocess.Popen([f"{self.top}/goheap", *words], **how) as run:
            os.close(theirs)
            while wanted not in text and select.select([ours], [], [], 20)[0]:
                text += os.read(ours, 4096).decode()
            run.terminate()
            run.wait(20)
        os.close(ours)
        return text

    def noted(self) -> list[str]:
        return read(self.notes).splitlines() if os.path.exists(self.notes) else []
