"""Who judges the real reports of the tests: the proved judge where the goheap that is built reads version 4, and else the plain one."""

import os
import subprocess
import tempfile
from typing import List, Tuple

from goheap_tools.cli import explain
from goheap_tools.formats import traces
from goheap_tools.look import judging

REAL = 4


def judge() -> str:
    """Who judges."""
    return "goheap check" if judging.reads(REAL) else "recorder/explain, since no goheap is built that reads version 4"


def proved(trace: str, report: str) -> str:
    """What the proved judge says: `sound`, or the words of its refusal."""
    with tempfile.TemporaryFile("w+") as given:
        given.write(trace + report)
        given.seek(0)
        ran = subprocess.run([judging.LAUNCHER, "check"], stdin=given, capture_output=True, text=True)
    return "sound" if ran.stdout == "check ok\n" else ran.stderr.strip().removeprefix("goheap: ")


def told(trace: str, report: str) -> List[str]:
    """What `explain` says, a sentence a line."""
    return list(explain.explanation(traces.read_trace(trace.splitlines(True)), report.encode(), {}, "report"))


def verdict(trace: str, report: str) -> Tuple[str, List[str]]:
    """What is said of a report: `sound`, or `report line L: rule R`; and the sentences of `explain` on one that is not. Where both judges
    are there they must agree."""
    sentences = told(trace, report)
    words = sentences[0].split()
    plain = "sound" if len(sentences) == 1 and words[-1] == "sound." else f"report line {words[2]}: rule {words[5].rstrip(',')}" if words[3] == "breaks" else sentences[0]
    if judging.reads(REAL):
        found = proved(trace, report)
        if found != plain and not (words[3:4] == ["is"] and "malformed" in found):
            raise AssertionError(f"goheap check says {found!r}, and explain {plain!r}")
    return plain, sentences


def name() -> str:
    return f"judged by {judge()} ({os.path.basename(judging.BUILT)})" if judging.reads(REAL) else f"judged by {judge()}"
