"""Answers inputs of any size, over all processors.

An input is cut at its records (`parts`), and each part is a run of its own: by processes that have the library (`workers`), or
by programs where there is no library that answers parts. The answers come in order, with the numbers that they have in the
whole, and the last line has the sums: the text is the one that a single run would write if it read inputs of any size. Only
a record that is larger by itself than an input may be ends it with `stop TooLong`.
"""
from __future__ import annotations

import io
import marshal
import os
import re
import zlib
from collections import deque
from contextlib import closing, contextmanager
from typing import TYPE_CHECKING, Any, BinaryIO, Callable, Deque, Generator, Iterable, Iterator, Optional, Sequence, Tuple, Union, cast

from .basics import HINTS, MOST_BYTES, READING_JOBS, WHAT_WENT_WRONG, PigaleError
from .parts import Part, Read, Size, joined, parts_of, unpacked
from .streams import INPUT_LOST, write_all
from .workers import TRIES, Task, Workers, answering_library

if TYPE_CHECKING:
    from concurrent.futures import Future

    from .formats import Answer
    from .logs import Log
    from .programs import Programs, Written
    from .runs import Records
    from .tables import Tally

NUMBERED = (b"figure ", b"count ", b"verdict ", b"refused ", b"<!-- refused ")
LAST = re.compile(rb"(<!-- )?(?:end records (\d+) refused (\d+)|stop (\w+)(?: (\d+))?)( -->)?\n")
LEAST_PART, MOST_PART, MOST_COUNTED = 1 << 14, 1 << 18, 1 << 20
MOST_NUMBERED = (1 << 32) - MOST_BYTES  # records before a part that the library numbers

Answering = Union[Task, "Future[Written]"]
Runs = Deque[Tuple[Part, Answering]]


class Progress:
    """How far a run over all processors has come: the bytes that were read, and the records that were answered.

    `trouble` says in words what ended the run, where it was no bad place of the input.
    """

    def __init__(self) -> None:
        self.read = 0
        self.answered = 0
        self.trouble = ""


def run_all(words: Sequence[str], source: BinaryIO, sink: BinaryIO, processes: Optional[int] = None,
            tell: Optional[Callable[[Progress], None]] = None, renumber: bool = True, log: Optional[Log] = None) -> int:
    """Answers an input of any size; returns the worst status of its runs.

    `words` are a job that reads and its options. `source` is a binary file of what the job reads: packed by gzip or not,
    one file or several that were joined. The text goes to `sink`, which may be a raw file. As many programs run side by
    side as `processes` says, or else as there are processors. `tell` is called each time that answers were written, and
    at the end. Where `renumber` is False, records keep the numbers of their parts, which do for a table.
    Parts that a `log` has as done are passed over, and the others are noted there once the answers to them are written.

    A part of the input whose program is ended by a signal is given to another one, three times in all. Then the text ends
    before the answers to it, and the status is 128 and the number of the signal. Where a read fails, the text ends behind
    the answers to the records before that, and the status is 4. Raises OSError where `sink` cannot be written, and
    ValueError where the words name no job that reads.
    """
    over = _Over(words, processes, source, renumber, log)
    with closing(over.texts()) as texts:
        for text in texts:
            write_all(sink, text)
            if tell:
                tell(over.progress)
    if tell:
        tell(over.progress)
    return over.status


def tabled(job: str, source: BinaryIO, tally: Tally, processes: Optional[int] = None,
           tell: Optional[Callable[[Progress], None]] = None) -> int:
    """Takes a table of a job's answers to an input of any size into `tally`; returns the worst status of its runs, as `run_all`."""
    over = _Over([job], processes, source, renumber=False, tally=tally)
    with closing(over.texts()) as texts:
        for text in texts:
            tally.write(text)
            if tell:
                tell(over.progress)
    if tell:
        tell(over.progress)
    return over.status


def stream(job: str, records: Union[Records, BinaryIO], processes: Optional[int] = None) -> Iterator[Answer]:
    """Yields the answers of a job to records of any number, in order, as `run` has them.

    `records` is as in `run`, or a binary file as in `run_all`, or any iterable, which is taken only so far as answers
    are due: memory does not grow with the number of records. Raises ValueError where the job reads nothing, and
    PigaleError as `run` does, behind the answers before that; its `run` has then the last line alone.
    """
    from .formats import End, Stop, read_blocks
    from .runs import Run, encoded, readable
    if isinstance(records, (bytes, str)):
        records = io.BytesIO(encoded(job, records))
    over = _Over([job], processes, records)
    with closing(over.texts()) as texts:
        for text in texts:
            blocks = readable(text.decode("ascii"))
            yield from (block for block in blocks if not isinstance(block, (End, Stop)))
    if over.status > 1:
        last = over.last_line.decode("ascii")
        raise PigaleError(Run(job, over.status, last, read_blocks(last)), over.progress.trouble)


class _Source:
    """Reads bytes until they end or a read fails, and keeps which of the two it was."""

    def __init__(self, source: BinaryIO, progress: Progress):
        self.source, self.progress = source, progress
        self.fault: Optional[Exception] = None
        self.unpacked: Optional[Read] = None
        self.head = b""

    def read(self, size: int) -> bytes:
        try:
            self.unpacked = self.unpacked or unpacked(self.source)
            found = self.unpacked(size)
        except (OSError, EOFError, zlib.error) as fault:
            self.fault = fault
            return b""
        self.progress.read += len(found)
        self.head = (self.head + found)[:1000] if len(self.head) < 1000 else self.head
        return found


def _pool(words: Sequence[str], count: int, tabled: bool) -> Union[Workers, Programs]:
    """What answers parts side by side: processes that have the library, or programs."""
    path = answering_library()
    if path:
        return Workers(path, words, count, tabled)
    from .programs import Programs
    return Programs(words, count)


@contextmanager
def _ended(pool: Union[Workers, Programs]) -> Iterator[None]:
    """Ends what answers parts side by side, whatever comes."""
    try:
        yield
    finally:
        pool.end()


class _Over:
    """A run over all processors. `status` and `last_line` are known once its texts have come."""

    def __init__(self, words: Sequence[str], processes: Optional[int], given: Union[BinaryIO, Iterable[Any]], renumber: bool = True,
                 log: Optional[Log] = None, tally: Optional[Tally] = None):
        job = next((word for word in words if word in READING_JOBS), None)
        if job is None:
            raise ValueError(f"no job that reads is among the words: {' '.join(words)}")
        self.job, self.renumber = job, renumber
        self.count = processes or processors()
        self.pool = _pool(words, self.count, tally is not None)
        self.log, self.tally = log, tally
        self.noted: Optional[Tuple[Part, int, int, int]] = None
        self.progress = Progress()
        size = _size(job, log.count if log else self.count)
        self.source: Optional[_Source] = None
        if hasattr(given, "read"):
            self.source = _Source(cast(BinaryIO, given), self.progress)
            self.parts = parts_of(job, self.source.read, size)
        else:
            from .runs import encoded
            self.parts = joined(job, (encoded(job, [record], k, False) for k, record in enumerate(given, 1)), size)
        self.status = self.refused = 0
        self.last_line, self.frame = b"", (b"<!-- ", b" -->") if "svg" in words else (b"", b"")

    def texts(self) -> Generator[bytes, None, None]:
        """Yields the text of each part, as it is in the whole, and last the last line."""
        runs: Runs = deque()
        with _ended(self.pool):
            for part in self.parts:
                if self._is_done(part):
                    continue
                runs.append((part, self._given(part)))
                while not self.pool.has_room() and not self._is_over():
                    yield from self._answered(runs)
                if self._is_over():
                    break
            while runs and not self._is_over():
                yield from self._answered(runs)
        if self.last_line:
            yield self.last_line
        elif self.status < 2 and self.source and self.source.fault:
            self.status = 4
            self.progress.trouble = f"{INPUT_LOST} ({self.source.fault})"
        elif self.status < 2:
            self._end(b"end records %d refused %d" % (self.progress.answered, self.refused))
            yield self.last_line

    def _is_over(self) -> bool:
        """Whether nothing more is answered."""
        return bool(self.last_line) or self.status > 1

    def _is_done(self, part: Part) -> bool:
        """Whether a part was done by an earlier run, as the log has it; what it has is then taken into the sums."""
        done = self.log.passes(part) if self.log else None
        if done is None:
            return False
        self.progress.answered = part.first + part.records
        self.refused += done.refused
        self.status = max(self.status, done.status)
        return True

    def _answered(self, runs: Runs) -> Iterator[bytes]:
        """Yields the text of the first of some runs, and notes its part once more is asked for, so once it is written."""
        self.noted = None
        yield self._first_text(runs)
        if self.log and self.noted:
            self.log.note(*self.noted)

    def _given(self, part: Part) -> Answering:
        """What comes of a part: a task of the processes that have the library, or a program's run."""
        if isinstance(self.pool, Workers):
            return self.pool.give(part.data, part.first if self._is_numbered(part) else 0)
        return self.pool.give(part.data)

    def _is_numbered(self, part: Part) -> bool:
        """Whether the library numbers the answers to a part, which it does with numbers of 32 bits."""
        return self.renumber and part.first < MOST_NUMBERED

    def _first_text(self, runs: Runs) -> bytes:
        """The text of the first of some runs, without its last line, which is taken into the sums."""
        part, run = runs.popleft()
        status, text, sums = self._wait(run)
        by = part.first if self.renumber and not (isinstance(run, Task) and self._is_numbered(part)) else 0
        at = len(text) if sums else text.rfind(b"\n", 0, -1) + 1
        last = LAST.fullmatch(text, at)
        if last and last[2]:
            sums = int(last[2]), int(last[3])
        elif not last and not sums:
            return self._broken_text(part, status, text, by)
        self.progress.answered = part.first + part.records
        if last:
            self.frame = last[1] or b"", last[6] or b""
        # of what could not be read to its end the ending says nothing
        is_told = bool(runs) or not (self.source and self.source.fault)
        text = _renumbered(text[:at], by)
        if sums:
            if sums[0] != part.records:
                raise AssertionError(f"a part of {part.records} records was read as one of {sums[0]}")
            self.refused += sums[1]
            self.status = max(self.status, status)
            self.noted = (part, sums[1], status, len(text)) if is_told else None
        elif last and is_told:
            self.status = status
            self._end(_stop_line(part, last[4], last[5], runs[0][0] if runs else None))
            self._explain(last[4])
        return text

    def _wait(self, run: Answering) -> Tuple[int, bytes, Optional[Tuple[int, int]]]:
        """Waits for the answers to a part; returns the status and the text, and the sums where they stand in no last line."""
        if not isinstance(run, Task):
            return (*cast("Programs", self.pool).wait(run), None)
        status = cast(Workers, self.pool).wait(run)
        text = b"stop BadWords\n" if status == 2 else bytes(run.text)
        run.drop()
        if self.tally and status < 2:
            self.tally.add(marshal.loads(text))
            text = b""
        return status, text, (run.records, run.refused) if status < 2 else None

    def _broken_text(self, part: Part, status: int, text: bytes, by: int) -> bytes:
        """What is taken of the text of a run without its last line, with numbers raised; sets the status and says what happened.

        Where a signal ended the program three times, that is nothing: its text may end anywhere.
        """
        where = f"the part that begins with record {part.first + 1} at byte {part.byte}"
        self.progress.answered = part.first
        # a run that says that it ended well did not write all that it wrote
        self.status = status if status > 3 else 5
        if status > 128:
            self.progress.trouble = (f"a program was ended by signal {status - 128}, {TRIES} times, on {where}; what was written "
                                     "are the answers to the records before that")
            return b""
        cause = HINTS.get(status, f"the program ended with status {status} and without its last line")
        self.progress.trouble = f"{cause}, on {where}; what was written is the beginning of the answers"
        return _renumbered(text, by)

    def _explain(self, ending: bytes) -> None:
        """Says what the job reads, and what the input is if that is something else, where it ended badly."""
        from .kinds import reading_hint
        reads, found = reading_hint(self.job, self.source.head if self.source else b"\0")
        if ending == b"TooLong":
            self.progress.trouble = f"a record by itself has more than 16 MiB, which the program does not read; {reads}"
        elif ending != b"BadWords":
            self.progress.trouble = f"{reads}; {found}" if found else f"the input has a bad place: {reads} ({WHAT_WENT_WRONG})"

    def _end(self, line: bytes) -> None:
        self.last_line = self.frame[0] + line + self.frame[1] + b"\n"


def _stop_line(part: Part, name: bytes, number: Optional[bytes], after: Optional[Part]) -> bytes:
    """The line of a bad place in a part, by its number in the whole; `after` is the next part, if there is one."""
    if number is None:
        return b"stop " + name
    if name == b"EndInFigure" and after is not None and b"\n" in after.data:
        # the next line stands within the figure, and is none of it
        return b"stop BadLine %d" % (after.place + 1)
    return b"stop %s %d" % (name, part.place_of(int(number)))


def _renumbered(text: bytes, by: int) -> bytes:
    """The text with each record's number raised."""
    if not by:
        return text
    text = b"\n" + text
    for word in NUMBERED:
        first, *others = text.split(b"\n" + word)
        if others:
            pieces = [first]
            for piece in others:
                number, _, rest = piece.partition(b" ")
                pieces.append(b"%d %s" % (int(number) + by, rest))
            text = (b"\n" + word).join(pieces)
    return text[1:]


def processors() -> int:
    """How many processors this process may use."""
    return len(os.sched_getaffinity(0)) if hasattr(os, "sched_getaffinity") else os.cpu_count() or 1


def _size(job: str, count: int) -> Size:
    """The sizes of parts: small at first, so that a short input is shared out too."""
    made = 0
    most = MOST_COUNTED if job == "count" else MOST_PART

    def size() -> int:
        nonlocal made
        made += 1
        return min(most, LEAST_PART << min(20, made // count))

    return size
