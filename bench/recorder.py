"""recorder.py GO: the processor time of programs that record themselves, beside the same programs plain, and the bytes of their recordings.

Each pair of programs is run in turns, on one processor and on four, and the medians are compared.
"""

import os
import resource
import statistics
import subprocess
import sys
import tempfile

HERE = os.path.dirname(os.path.abspath(__file__))
sys.path.insert(0, os.path.join(os.path.dirname(HERE), "recorder"))

from goheap_tools.inside import overlay  # noqa: E402
from goheap_tools.inside.recording import CHUNK_BYTES, Object, Recording  # noqa: E402

TURNS = 9


def seconds(words: list[str], **variables: str) -> float:
    """Processor time of a command, its own and the system's."""
    before = resource.getrusage(resource.RUSAGE_CHILDREN)
    subprocess.run(words, env={**os.environ, **variables}, stdout=subprocess.DEVNULL, check=True)
    after = resource.getrusage(resource.RUSAGE_CHILDREN)
    return after.ru_utime + after.ru_stime - before.ru_utime - before.ru_stime


def build(go: str, folder: str, name: str, package: str, *flags: str) -> str:
    """The path of a program of the benchmark, or of one of Go's own."""
    out = os.path.join(folder, name)
    subprocess.run([go, "build", *flags, "-o", out, package], cwd=os.path.join(HERE, "programs"), check=True)
    return out


def compared(name: str, plain: list[str], inside: list[str], recording: str) -> None:
    for processors in ("1", "4"):
        times: dict[str, list[float]] = {"plain": [], "recorded": []}
        for _ in range(TURNS):
            times["plain"].append(seconds(plain, GOMAXPROCS=processors))
            if os.path.exists(recording):
                os.unlink(recording)
            times["recorded"].append(seconds(inside, GOMAXPROCS=processors, GOHEAP_RECORD=recording))
        before, after = (statistics.median(times[kind]) for kind in ("plain", "recorded"))
        with Recording(recording) as read:
            objects = sum(1 for event in read.events() if isinstance(event, Object))
            size = read.header.next_chunk * CHUNK_BYTES
        print(f"{name}, GOMAXPROCS={processors}: {after / before:.2f} times plain ({before:.3f} s), {objects} objects, {size / objects:.1f} bytes each, "
              f"{size / before / 1e6:.1f} MB a second of the plain program", flush=True)  # fmt: skip


def main() -> None:
    go = sys.argv[1]
    flag = f"-overlay={overlay.prepare(go)}"
    root = subprocess.run([go, "env", "GOROOT"], capture_output=True, text=True, check=True).stdout.strip()
    with tempfile.TemporaryDirectory(prefix="goheap-bench-") as folder:
        recording = os.path.join(folder, "recording")
        gofmt, programs = (tuple(build(go, folder, name + kind, package, *flags) for kind, flags in (("", ()), ("-recorded", (flag,))))
                           for name, package in (("gofmt", "cmd/gofmt"), ("programs", ".")))  # fmt: skip
        printer = os.path.join(root, "src", "go", "printer")
        compared("gofmt over go/printer", [gofmt[0], "-l", printer], [gofmt[1], "-l", printer], recording)
        for kind, count, name in (("server", "4000", "a server with eight clients"), ("small", "1000000", "small objects alone")):
            compared(name, [programs[0], kind, count], [programs[1], kind, count], recording)


if __name__ == "__main__":
    main()
