"""Tables of what a run answers: how many records have the same counts, are drawn or judged alike, or break the same condition."""
from collections import Counter
from typing import Dict, List, Mapping, Tuple

from .basics import GRID_JOBS
from .worker import tallied

GOOD = ("drawn", "planar", "yes")


class Tally:
    """A file that takes what a job writes, in pieces of whole lines, and keeps how many records have the same answer."""

    def __init__(self, job: str) -> None:
        self.job = job
        self.counts: Dict[bytes, int] = Counter()
        self.answers: Dict[str, int] = Counter()
        self.refusals: Dict[str, int] = Counter()
        self.last = ""

    def write(self, data: bytes) -> int:
        """Takes some lines, and returns how many bytes they have."""
        self.add(tallied(data))
        last = data[data.rfind(b"\n", 0, -1) + 1:].decode("ascii").rstrip("\n")
        if last.startswith(("end ", "stop ")):
            self.last = last
        return len(data)

    def add(self, table: Mapping[bytes, Mapping[bytes, int]]) -> None:
        """Takes a table of some lines, as `worker.tallied` has it."""
        for sayings in (table.get(b"count", {}),) if self.job == "count" else ():
            for saying, records in sayings.items():
                self.counts[saying] += records
        for word, names in ((b"figure", self.answers), (b"verdict", self.answers), (b"refused", self.refusals)):
            for saying, records in table.get(word, {}).items():
                names[self._named(saying.decode("ascii"))] += records

    def _named(self, word: str) -> str:
        """What a word says of a record: the name of a job in a figure that it is drawn, or planar, and others themselves."""
        return word if word not in GRID_JOBS + ("bars", "rect") else "planar" if self.job == "embed" else "drawn"

    def __str__(self) -> str:
        lines = [f"{name} {records}" for name, records in sorted(self.answers.items(), key=lambda one: (one[0] not in GOOD, one[0]))]
        if self.job == "count":
            rows: List[Tuple[str, ...]] = [("n", "m", "f", "c", "genus", "records")]
            found = sorted((tuple(map(int, words.split(b" ")[1::2])), records) for words, records in self.counts.items())
            rows += [(*map(str, counts), str(records)) for counts, records in found]
            wide = [max(map(len, column)) for column in zip(*rows)]
            lines = ["  ".join(word.rjust(width) for word, width in zip(row, wide)) for row in rows]
        lines += [f"refused {name} {records}" for name, records in sorted(self.refusals.items())]
        return "".join(f"{line}\n" for line in [*lines, *([self.last] if self.last else [])])

