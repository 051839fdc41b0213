"""Where the files of a recording are: in a folder, as `trace`, `report` and `stacks`, or side by side, as NAME.trace, NAME.report and NAME.stacks."""

import os
from typing import NamedTuple, Optional

from goheap_tools.tool import Unusable


class Files(NamedTuple):
    """The files of a recording; the trace is there."""

    trace: str
    report: Optional[str]
    stacks: Optional[str]


def recording_at(path: str) -> Files:
    """The recording that this path names: a folder, or what the names of its files begin with."""
    front = os.path.join(path, "") if os.path.isdir(path) else f"{path}."
    trace, report, stacks = (front + name for name in Files._fields)
    if not os.path.isfile(trace):
        raise Unusable(f"{path}: no recording: it is no folder with a file `trace`, and there is no {path}.trace")
    return Files(trace, report if os.path.isfile(report) else None, stacks if os.path.isfile(stacks) else None)
