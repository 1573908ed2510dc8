"""What the other modules share, and a command needs at once: the jobs, the limits, and how a run of the program ends."""
from __future__ import annotations

from typing import TYPE_CHECKING

if TYPE_CHECKING:
    from .runs import Run

HEADER = b">>planar_code<<"
MOST_BYTES = 1 << 24  # of an input that the program reads
MOST_VERTICES = 4095  # of a map that the program reads

PLANAR_JOBS = ("count", "shift", "schnyder", "bars", "convex", "rect")
GRID_JOBS = ("shift", "schnyder", "convex")
READING_JOBS = (*PLANAR_JOBS, "embed", "verify")

WHAT_WENT_WRONG = 'docs/FORMATS.md, "What went wrong?"'
HINTS = {
    2: "the job or an option is none of the program's",
    3: f"the input has a bad place ({WHAT_WENT_WRONG})",
    4: "a read failed",
    5: "a write failed",
    6: "there was not enough memory",
}


class PigaleError(Exception):
    """The program ended with a status above 1. `run` is what it wrote until then, as a `Run`; `trouble` says why, if known."""

    def __init__(self, run: Run, trouble: str = "") -> None:
        self.run = run
        last = str(run.blocks[-1]) if run.blocks else "nothing written"
        killed = f"signal {run.status - 128} ended the program" if run.status > 128 else ""
        hint = trouble or HINTS.get(run.status, killed)
        super().__init__(f"pigale {run.job} ended with status {run.status} ({last}){hint and ': ' + hint}")
