"""Has drawings judged one by one by a program that stays.

`verify` answers each figure before it reads the next one. So a layout tool asks for a verdict after each step at the cost
of the verdict alone, where a call of the program costs some milliseconds. `docs/CHECKING.md` has the same for other
languages.
"""
from __future__ import annotations

import re
import subprocess
from dataclasses import replace
from types import TracebackType
from typing import Any, Iterable, Optional, Sequence, Type, Union

from .checks import Checked, Places, Rotations, _checked, _prepared
from .formats import MOST_BYTES, Figure, Refused, Stop, Verdict, read_blocks
from .runs import PigaleError, Run, program
from .streams import write_all


HEAD = re.compile(r"figure \S+ (?:(shift|schnyder|convex|rect|bars) ([0-9]+)|witness (K5|K33) \S+)")


class Session:
    """A program that judges drawings until it is closed, at best by `with Session() as session`.

    It is not for several threads at once: each has a session of its own.
    """

    def __init__(self) -> None:
        self.judged = 0
        self._running: Optional["subprocess.Popen[bytes]"] = None
        self._left = self._lines = 0
        self.program = program()

    def check(self, places: Places, edges: Iterable[Sequence[Any]], rotations: Optional[Rotations] = None) -> Checked:
        """Whether a straight-line drawing is plane, as `check` says it. Raises as `check` does."""
        figure, names = _prepared(places, edges, rotations)
        return _checked(self.verify(figure), names)

    def verify(self, figure: Union[Figure, str]) -> Union[Verdict, Refused]:
        """The verdict on a figure, or its refusal, with the number of figures that the session judged.

        A text is that of one figure, without its last line end. Raises ValueError where it has another number of lines
        than its first line says, and PigaleError where the program has no verdict, as on a coordinate out of its range:
        the bad place is then a line of the figure, from 1. The session goes on with the next figure.
        """
        text = str(figure)
        lines = _checked_lines(text)
        line = self._answer(f"{text}\n".encode("ascii", "surrogateescape"))
        block = read_blocks(line)[0] if line.endswith("\n") else None
        if isinstance(block, (Verdict, Refused)):
            self._lines += lines
            self.judged += 1
            return replace(block, number=self.judged)
        if isinstance(block, Stop):
            block = Stop(block.name, tuple(number - self._lines for number in block.numbers))
        status = self._end()
        raise PigaleError(Run("verify", status, line, [block] if block else []))

    def _answer(self, text: bytes) -> str:
        """The line that the program answers to the text of a figure; before an input is full another program is started."""
        if len(text) > self._left:
            self._end()
        if self._running is None:
            self._running = subprocess.Popen([self.program, "verify"], stdin=subprocess.PIPE, stdout=subprocess.PIPE)
            self._left, self._lines = MOST_BYTES, 0
        self._left -= len(text)
        given, out = self._running.stdin, self._running.stdout
        assert given and out
        try:
            write_all(given, text)
            given.flush()
        except BrokenPipeError:
            # it stopped before the end of the text, and says why
            pass
        return out.readline().decode("ascii")

    def _end(self) -> int:
        """Ends the program, and returns its status."""
        running, self._running = self._running, None
        if running is None:
            return 0
        assert running.stdin and running.stdout
        try:
            running.stdin.close()
        except BrokenPipeError:
            pass
        running.stdout.close()
        return running.wait()

    def close(self) -> None:
        """Ends the program. A later verdict starts another one."""
        self._end()

    def __enter__(self) -> Session:
        return self

    def __exit__(self, kind: Optional[Type[BaseException]], fault: Optional[BaseException],
                 trace: Optional[TracebackType]) -> None:
        self.close()

    def __del__(self) -> None:
        self.close()


def _checked_lines(text: str) -> int:
    """The number of lines of a figure. Raises ValueError where it is another than the first line says.

    To a text that ends within a figure the program would answer nothing, and wait for its next line.
    """
    first, lines = text.partition("\n")[0], text.count("\n") + 1
    if not first.startswith("figure "):
        raise ValueError(f"this is no figure's text: it begins with {first[:60]}")
    found = HEAD.fullmatch(first)
    if found:
        due = {"K5": 12, "K33": 11}[found[3]] if found[3] else int(found[2]) + (2 if found[1] == "bars" else 1)
        if lines != due:
            raise ValueError(f"the figure has {lines} lines, and by its first line {due}")
    return lines
