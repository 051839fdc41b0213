"""Makes one page of a recording, which a browser opens: what is live, what grew, who allocated it, where it stands, and who keeps which pages.

    recorder/look [OPTIONS] -- ./program ARGUMENTS
    recorder/look server.heap
    recorder/look trace report --stacks stacks
    recorder/look --base OLD NEW

The first form records the program (options that it does not know are those of `record`) and makes the page: of a program that records itself
that of its real heap, of another one that of the trace which is run. The second is for a recording that such a program made. The last one
sets two recordings side by side, each a folder with the files trace, report and stacks, or what the names NAME.trace, NAME.report and
NAME.stacks begin with.
"""

import argparse
import contextlib
import os
import subprocess
import sys
import webbrowser
from typing import Dict, List, Optional, Tuple

from goheap_tools import tool
from goheap_tools.cli import pair
from goheap_tools.formats import companions
from goheap_tools.formats.recordings import Files, recording_at
from goheap_tools.formats.report import report_in
from goheap_tools.formats.stacks import Stacks, stack_file
from goheap_tools.formats.traces import trace_in
from goheap_tools.inside.kinds import Kind, kind_of
from goheap_tools.look import gather, judging
from goheap_tools.look.assemble import Page
from goheap_tools.look.gather import Recording
from goheap_tools.progress import Steps

# Seconds that a megabyte of trace and report takes, by step, as measured; so a step tells how far it is.
READING, COUNTING, WRITING, EXPLAINING, RUNNING, MODELLING, PAIRING = 0.06, 0.09, 0.12, 0.5, 0.05, 2.0, 1.0
RECORDER = os.path.join(judging.TOP, "recorder", "record")


def options_of(words: List[str]) -> argparse.Namespace:
    at = words.index("--") if "--" in words else len(words)
    parser = argparse.ArgumentParser(prog="look", description=__doc__.split("\n\n")[0], usage="look [options] [trace report | --base OLD NEW | [options of record] -- program arguments]", allow_abbrev=False)
    if "--" not in words:
        parser.add_argument("given", nargs="*", metavar="file", help="a trace and its report, or one recording: a file that a program recorded itself into, a folder, or what the names of its files begin with")
    parser.add_argument("--stacks", help="the stacks that `record` wrote")
    parser.add_argument("--base", metavar="OLD", help="a recording to hold this one against: a folder, or what the names of its files begin with")
    parser.add_argument("--output", "-o", default="look.html", help="the page (default look.html)")
    parser.add_argument("--folder", default="recording", help="where a program's recording is written (default recording)")
    parser.add_argument("--title", help="the page's title (default: the program's or the trace's name)")
    parser.add_argument("--open", action="store_true", help="open the page in the browser")
    parser.add_argument("--no-judge", dest="judge", action="store_false", help="leave the report unjudged")
    options, others = parser.parse_known_args(words[:at])
    options.command, options.record, options.given = words[at + 1 :], others, getattr(options, "given", [])
    if "--" in words and not options.command:
        parser.error("no program stands behind --")
    if options.command and options.stacks:
        parser.error("stacks and a program to run were given")
    if others and not options.command:
        parser.error(f"unrecognized arguments: {' '.join(others)}")
    if not options.command and len(options.given) not in (1, 2):
        parser.error("neither a trace and its report nor a recording was given")
    return options


def megabytes(*paths: Optional[str]) -> float:
    return sum(os.path.getsize(path) for path in paths if path) / 1e6


def record(options: argparse.Namespace, progress: Steps) -> Files:
    """Runs the program under `record`, and the trace of one that does not record itself."""
    os.makedirs(options.folder, exist_ok=True)
    if os.path.isfile(options.command[0]) and kind_of(options.command[0]) is Kind.ITSELF:
        return record_itself(options, progress)
    trace, report, stacks = (os.path.join(options.folder, name) for name in Files._fields)
    with progress.step(f"records {os.path.basename(options.command[0])}"):
        ran = subprocess.run([RECORDER, *options.record, "-o", trace, "--stacks", stacks, "--", *options.command], stderr=subprocess.PIPE, text=True)
    said = [line for line in ran.stderr.splitlines() if not line.startswith("record: written to")]
    if ran.returncode:
        raise tool.Unusable("\n".join(said) or f"record ended with status {ran.returncode}")
    for line in said:
        progress.done(line)
    run(trace, report, progress)
    return Files(trace, report, stacks)


def record_itself(options: argparse.Namespace, progress: Steps) -> Files:
    """Runs a program that records itself, whatever its own status is: its report is what Go's runtime did."""
    path = os.path.join(options.folder, os.path.basename(options.command[0]) + ".heap")
    with contextlib.suppress(FileNotFoundError):
        os.remove(path)
    with progress.step(f"records {os.path.basename(options.command[0])}"):
        ran = subprocess.run([RECORDER, *options.record, "-o", path, "--", *options.command], stderr=subprocess.PIPE, text=True)
    if not os.path.exists(path):
        raise tool.Unusable(ran.stderr.strip() or f"record ended with status {ran.returncode}")
    return paired(path, progress)


def paired(path: str, progress: Steps) -> Files:
    """Trace, report and stacks of a recording that a program made of itself, beside it."""
    with progress.step("makes trace and report of the recording", PAIRING * megabytes(path)):
        pair.main([path])
    return Files(*(os.path.splitext(path)[0] + "." + name for name in Files._fields))


def run(trace: str, report: str, progress: Steps) -> None:
    """Has the report of a trace made."""
    version = judging.version_of(trace)
    pace = RUNNING if judging.reads(version) else MODELLING
    with progress.step(f"runs {os.path.basename(trace)} by {judging.by_whom(version)}", pace * megabytes(trace)):
        judging.run_trace(trace, report)


def files_of(options: argparse.Namespace, progress: Steps) -> Files:
    """The files of the recording that the page is of."""
    if options.command:
        return record(options, progress)
    if len(options.given) == 2:
        return Files(options.given[0], options.given[1], options.stacks)
    if os.path.isfile(options.given[0]) and kind_of(options.given[0]) is Kind.RECORDING:
        return paired(options.given[0], progress)
    found = recording_at(options.given[0])
    return with_report(found._replace(stacks=options.stacks or found.stacks), progress)


def with_report(files: Files, progress: Steps) -> Files:
    """The recording with its report, which is made where there is none."""
    if files.report:
        return files
    report = files.trace.removesuffix("trace") + "report"
    run(files.trace, report, progress)
    return files._replace(report=report)


def read(files: Files, progress: Steps) -> Recording:
    """The recording, whose files must be of one."""
    with progress.step(f"reads {files.trace}", READING * megabytes(files.trace, files.report)):
        stacks = stack_file(files.stacks) if files.stacks else Stacks({}, {}, {})
        trace = trace_in(files.trace)
        companions.of_trace(stacks, trace, (files.stacks or "", trace.name))
        report = report_in(files.report or "")
        if len(report.addresses) != len(trace.sizes):
            raise tool.Unusable(f"{report.name} has {len(report.addresses)} objects, and {trace.name} has {len(trace.sizes)}: it is no report of this trace")
    with progress.step("counts who is alive", COUNTING * megabytes(files.trace, files.report)):
        return gather.counted(trace, report, stacks)


def title_of(options: argparse.Namespace, files: Files, recording: Recording) -> str:
    if options.title:
        return options.title
    program = recording.stacks.header.get("program")
    folder, name = os.path.split(os.path.abspath(files.trace))
    return program or (os.path.basename(folder) if name == "trace" else name.removesuffix(".trace"))


def page_of(options: argparse.Namespace, progress: Steps) -> Tuple[Page, Files]:
    files = files_of(options, progress)
    recording = read(files, progress)
    size = megabytes(files.trace, files.report)
    names: Dict[str, str] = {name: path or "" for name, path in files._asdict().items()}
    with progress.step("follows the pages", COUNTING * size):
        page = Page(recording, title_of(options, files, recording), names)
    if options.base:
        base_files = with_report(recording_at(options.base), progress)
        page.hold_against(read(base_files, progress), options.base)
    if options.judge:
        pace = READING if judging.is_built() else EXPLAINING
        with progress.step("has the report judged", pace * size):
            page.judged = judging.judged(recording, files.trace, files.report or "")
    return page, files


def steps_of(options: argparse.Namespace) -> int:
    """How many steps there are."""
    is_recording = len(options.given) == 1 and os.path.isfile(options.given[0])
    return 4 + options.judge + is_recording + 2 * bool(options.command) + 2 * bool(options.base)


def main(words: List[str]) -> int:
    options = options_of(words)
    progress = Steps("look", steps_of(options))
    with tool.Output(options.output) as out:
        page, files = page_of(options, progress)
        with progress.step("writes the page", WRITING * megabytes(files.trace, files.report)):
            out.write(page.text())
    if options.output != "-":
        progress.done(f"look: the page is {options.output} ({os.path.getsize(options.output) / 1e6:.1f} MB)")
    if options.open and options.output != "-":
        webbrowser.open("file://" + os.path.realpath(options.output))
    return 0


def command() -> None:
    tool.end("look", main, sys.argv[1:])
