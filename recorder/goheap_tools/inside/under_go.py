"""What the go command begins in a program's place: `record` as a runner, from wherever this package lies."""

import os
import sys

if __name__ == "__main__":
    sys.path[0] = os.path.dirname(os.path.dirname(os.path.dirname(os.path.abspath(__file__))))
    from goheap_tools.cli.record import command

    command()
