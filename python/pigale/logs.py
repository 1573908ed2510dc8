"""The log of a run over all processors: which parts of its input are done, so that another run goes on behind them."""
from __future__ import annotations

import os
import re
import zlib
from typing import List, NamedTuple, Optional, Sequence

from .parts import Part

HEAD = re.compile(r"pigale all (.+) cut for (\d+)\n")
LINE = re.compile(r"byte (\d+) records (\d+) sum (\d+) refused (\d+) status (\d) text (\d+)\n")


class Done(NamedTuple):
    """A part that is done: where it begins, its records and the sum of its bytes, and what was refused and written of it."""
    byte: int
    records: int
    sum: int
    refused: int
    status: int
    length: int


class Log:
    """A file with a line for each part that is done, each written once the answers to the part are.

    `words` are those of the run, and `count` says for how many processors its input is cut. Where it is to `resume`, what is
    in the file is taken as done, and `count` is the one that stands there. Raises ValueError where the file is there without
    that, or is of another run.
    """

    def __init__(self, path: str, words: Sequence[str], count: int, resume: bool) -> None:
        self.path, self.count = path, count
        self.done: List[Done] = []
        self.passed = 0
        if os.path.exists(path):
            if not resume:
                raise ValueError(f"{path} is there already: with --resume the run goes on behind it, and else it is to be removed")
            self._read(" ".join(words))
        else:
            self._append(f"pigale all {' '.join(words)} cut for {count}\n")

    @property
    def length(self) -> int:
        """How many bytes are written of the answers to what is done."""
        return sum(done.length for done in self.done)

    def _read(self, words: str) -> None:
        with open(self.path, encoding="ascii", newline="\n") as file:
            lines = file.read().splitlines(keepends=True)
        # the last line may have been cut off with the run
        whole = lines if lines and lines[-1].endswith("\n") else lines[:-1]
        head = HEAD.fullmatch(whole[0]) if whole else None
        found = [LINE.fullmatch(line) for line in whole[1:]]
        if head is None or head[1] != words or not all(found):
            raise ValueError(f"{self.path} is no log of `pigale all {words}`")
        self.count = int(head[2])
        self.done = [Done(*map(int, line.groups())) for line in found if line]
        os.truncate(self.path, sum(map(len, whole)))

    def _append(self, line: str) -> None:
        with open(self.path, "a", encoding="ascii", newline="\n") as file:
            file.write(line)

    def passes(self, part: Part) -> Optional[Done]:
        """What was done of the next part of the input, or None. Raises ValueError where it was another part."""
        if self.passed == len(self.done):
            return None
        done = self.done[self.passed]
        if (done.byte, done.records, done.sum) != (part.byte, part.records, zlib.crc32(part.data)):
            raise ValueError(f"the input is another than that of {self.path}, where it has byte {part.byte}")
        self.passed += 1
        return done

    def note(self, part: Part, refused: int, status: int, length: int) -> None:
        """Notes that a part is done, once the `length` bytes of the answers to it are written."""
        self._append(f"byte {part.byte} records {part.records} sum {zlib.crc32(part.data)} refused {refused} status {status} "
                     f"text {length}\n")
