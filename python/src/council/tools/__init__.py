"""Tools for games, reports and tables:

    council-tools TOOL [OPTIONS] ..

    from-table   makes a game file from a table, as a spreadsheet exports it
    table        prints a table of the indices
    export       writes a report as CSV, JSON, LaTeX or Markdown
    page         makes a page of HTML
    bars         draws the indices beside the shares of the votes
    sweep        computes the indices for each quota of a range
    compare      shows games side by side

Each reads files or standard input. council-tools TOOL --help says more.
"""
from __future__ import annotations

import importlib
import sys
from typing import Optional

from .. import __version__
from ..reports import Fault
from .command import NAME, run

TOOLS = ["from-table", "table", "export", "page", "bars", "sweep", "compare"]


def choose(words: list[str]) -> None:
    """Runs the tool that the first word names on the others."""
    tool, *others = words or ["--help"]
    if tool in ("-h", "--help"):
        print(__doc__.strip())
    elif tool in ("-V", "--version"):
        print(f"council-tools {__version__}")
    elif tool not in TOOLS:
        raise Fault(f"there is no tool {tool}: {', '.join(TOOLS)}", 2)
    else:
        NAME[:] = [f"council-tools {tool}"]
        importlib.import_module("." + tool.replace("-", "_"), __name__).main(others)


def main(words: Optional[list[str]] = None) -> int:
    """Runs council-tools on the words of its command line, and returns the exit status."""
    NAME[:] = ["council-tools"]
    return run(choose, sys.argv[1:] if words is None else words)
