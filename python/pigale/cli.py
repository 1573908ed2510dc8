"""The command `pigale`, which is `python3 -m pigale` and `python3 python/pigale.py` too."""
from __future__ import annotations

import argparse
import os
import signal
import sys
import time
from typing import TYPE_CHECKING, BinaryIO, Callable, List, Optional, Sequence, cast

from . import __version__
from .basics import HINTS, READING_JOBS, PigaleError
from .streams import (Ended, InputFault, OutputFault, cut_output, end_by, forget_output, put, read_input, require_output, signals_end,
                      standard_input)

if TYPE_CHECKING:
    from .formats import Figure
    from .parallel import Progress

Arguments = argparse.Namespace


COMMANDS = ("all", "check", "draw", "make", "page", "picture", "recode", "stacked")


def main(given: Optional[Sequence[str]] = None) -> int:
    """Is the command `pigale`: runs a command of the package, or hands all other words to the program; returns the status.

    The program has the words, standard input and standard output as they are, and its status is returned. What there is to
    say of another status than 0 goes to standard error. The status of a command is 0, 1 after a no or a refusal, 2 for
    wrong words, 3 where something failed, 4 where standard input and 5 where standard output did. `all` besides has the
    other statuses of the program. A signal that asks for the end ends a command by itself, once the programs that it
    started are ended.
    """
    words = list(sys.argv[1:] if given is None else given)
    if len(words) == 2 and "--table" in words and set(words) & set(READING_JOBS):
        words = ["table", *(word for word in words if word != "--table")]
    elif words and words[0] not in (*COMMANDS, "--help", "-h", "--version"):
        return _of_program(words)
    parser = _parser(words[:1])
    try:
        arguments = parser.parse_args(words)
    except SystemExit as end:
        return int(end.code or 0)
    if arguments.command is None:
        parser.print_help(sys.stderr)
        return 2
    command: Callable[[Arguments], int] = arguments.command
    try:
        with signals_end():
            require_output()
            return command(arguments)
    except Ended as end:
        return end_by(end.number)
    except (ValueError, OSError, PigaleError) as fault:
        if isinstance(fault, OutputFault):
            forget_output()
        print(f"pigale: {fault}", file=sys.stderr)
        return 4 if isinstance(fault, InputFault) else 5 if isinstance(fault, OutputFault) else 3


def _of_program(words: Sequence[str]) -> int:
    """Runs the program with words; returns its status, and says on standard error what there is to say of it."""
    import subprocess

    from .runs import program
    from .slips import explained
    try:
        # what is found on the path may be this command once more, where its kind cannot be told
        if os.environ.get("PIGALE_HANDED_ON"):
            raise FileNotFoundError("there is no program pigale: what the path has is the command of this package")
        _say_if_it_waits(words)
        status = subprocess.call([program(), *words], env={**os.environ, "PIGALE_HANDED_ON": "1"})
    except FileNotFoundError as fault:
        print(f"pigale: {fault}", file=sys.stderr)
        return 3
    except KeyboardInterrupt:
        return end_by(signal.SIGINT)
    status = status if status >= 0 else 128 - status
    for line in explained(words, status):
        print(f"pigale: {line}", file=sys.stderr)
    return status


def _say_if_it_waits(words: Sequence[str]) -> None:
    """Says what is awaited where a job reads and nothing is given but a terminal."""
    job = next((word for word in words if word in READING_JOBS), None)
    if job and sys.stdin is not None and sys.stdin.isatty():
        from .kinds import reading_hint
        print(f"pigale: {reading_hint(job, b'')[0]}, and waits for it from the terminal; a file stands behind <, as in: "
              f"pigale {job} < FILE", file=sys.stderr)


def _parser(words: Sequence[str]) -> argparse.ArgumentParser:
    """The commands; those alone that are named where these are quick to make, as `all` is."""
    parser = argparse.ArgumentParser(
        prog="pigale", description="Maps, figures and pictures of the program pigale.",
        epilog="Each command has a --help of its own. Statuses: 0, 1 after a no or a refusal, 2 for wrong words, 3 for what failed, "
               "4 where standard input and 5 where standard output fails. The jobs of the program are run too, as in "
               "`pigale count < maps.plc`: count, shift, schnyder, bars, convex, rect, embed, verify and gen.")
    parser.add_argument("--version", action="version", version=f"pigale {__version__}")
    parser.set_defaults(command=None)
    commands = parser.add_subparsers(metavar="COMMAND")

    def add(name: str, command: Callable[[Arguments], int], says: str) -> argparse.ArgumentParser:
        found = commands.add_parser(name, help=says, description=f"{says[0].upper()}{says[1:]}.")
        found.set_defaults(command=command)
        return found

    whole = add("all", _all, "runs a job on an input of any size, also of gzip or of files that were joined, over all processors")
    whole.add_argument("job", metavar="JOB", choices=READING_JOBS, help=f"as of the program: {', '.join(READING_JOBS)}")
    whole.add_argument("--form", choices=("text", "svg"), help="of figures, as of the program")
    whole.add_argument("-j", metavar="N", type=_positive, help="as many processes side by side; by default as there are processors")
    whole.add_argument("--log", metavar="LOG", help="note in this file which parts of the input are done")
    whole.add_argument("--resume", action="store_true", help="go on behind what the log has; standard output is the file of the run, "
                       "appended to by >>")
    table = commands.add_parser("table")  # by its one name `JOB --table`
    table.add_argument("job")
    table.set_defaults(command=_table)
    if list(words) in (["all"], ["table"]):
        return parser
    from .drawing_commands import add_commands
    add_commands(add)
    add("recode", _recode, "reads planar_code of any byte order, also of gzip or of joined files, and writes it as the program reads it")
    checked = add("check", _check_file, "prints the verdict on the drawing in a file of JSON or GraphML")
    checked.add_argument("--scale", action="store_true", help="round the places to whole numbers first")
    checked.add_argument("file", metavar="FILE", help="JSON with nodes (id, x, y) and edges (source, target), or GraphML (.graphml)")
    made = add("stacked", _stacked, "is `make stacked`, by its first name: the map that `pigale gen --size S --number N` makes")
    made.add_argument("size", metavar="S", type=int)
    made.add_argument("number", metavar="N", type=int)
    shown = add("picture", _picture, "reads a text of figures and writes a picture of one of them as SVG")
    shown.add_argument("--figure", metavar="K", type=int, default=1, help="the K-th figure of the text; by default the first")
    _add_look(shown)
    paged = add("page", _page, "runs a job on its input and writes its answers as an HTML page with pictures")
    paged.add_argument("job", metavar="JOB", help="as of the program: shift, convex, embed, verify and so on")
    paged.add_argument("--to", metavar="FOLDER", help="write pages of some hundred pictures each into this folder, from index.html on")
    _add_look(paged)
    return parser


def _add_look(parser: argparse.ArgumentParser) -> None:
    from .pictures import STYLES
    parser.add_argument("--side", metavar="N", type=float, help="the longer side of a picture, in pixels")
    parser.add_argument("--no-numbers", action="store_true", help="leave the numbers of vertices out")
    parser.add_argument("--style", metavar="WORDS", default="", help=f"joined by commas: {' and '.join(STYLES)}")


def _positive(text: str) -> int:
    if not text.isdecimal() or int(text) < 1:
        raise argparse.ArgumentTypeError(f"{text} is no number of programs")
    return int(text)


def _all(arguments: Arguments) -> int:
    from .parallel import processors, run_all
    words = [arguments.job] + (["--form", arguments.form] if arguments.form else [])
    if arguments.resume and not arguments.log:
        raise ValueError("--resume goes on behind a log, which --log LOG names")
    log = None
    if arguments.log:
        from .logs import Log
        log = Log(arguments.log, words, arguments.j or processors(), arguments.resume)
        if log.done:
            cut_output(log.length)
    meter = _Meter(sys.stderr.isatty())
    try:
        status = run_all(words, standard_input(), cast(BinaryIO, _Output()), arguments.j, meter.tell, log=log)
    finally:
        meter.end()
    if status > 1:
        print(f"pigale: {meter.trouble or HINTS[status]}", file=sys.stderr)
    return status


def _table(arguments: Arguments) -> int:
    from .parallel import tabled
    from .tables import Tally
    tally, meter = Tally(arguments.job), _Meter(sys.stderr.isatty())
    try:
        status = tabled(arguments.job, standard_input(), tally, None, meter.tell)
    finally:
        meter.end()
    put(str(tally))
    if status > 1:
        print(f"pigale: {meter.trouble or HINTS[status]}", file=sys.stderr)
    return status


class _Output:
    """Standard output, as a file that takes all of what it is given."""

    def write(self, data: bytes) -> int:
        put(data)
        return len(data)


class _Meter:
    """Says on a terminal how far a run is, five times a second, and keeps what went wrong."""

    def __init__(self, is_shown: bool) -> None:
        self.begun = self.told = time.monotonic()
        self.is_shown = is_shown
        self.line = self.trouble = ""

    def tell(self, progress: Progress) -> None:
        now = time.monotonic()
        self.trouble = progress.trouble
        self.line = f"{progress.answered:,} records answered, {progress.read / 1e6:,.1f} MB read, {now - self.begun:.1f} s"
        if self.is_shown and now - self.told > 0.2:
            self.told = now
            print(f"\r{self.line}", end="", file=sys.stderr, flush=True)

    def end(self) -> None:
        if self.is_shown and self.line:
            print(f"\r{self.line}", file=sys.stderr)


def _recode(_: Arguments) -> int:
    import zlib

    from .formats import read_planar_code, write_planar_code
    from .parts import unpacked
    try:
        data = unpacked(standard_input())(-1)
    except (EOFError, zlib.error) as fault:
        raise ValueError(f"the data packed by gzip are not whole: {fault}") from fault
    put(write_planar_code(read_planar_code(data)))
    return 0


def _check_file(arguments: Arguments) -> int:
    from .checks import check, read_drawing, scaled
    with open(arguments.file, encoding="utf-8") as file:
        places, edges = read_drawing(arguments.file, file.read())
    answer = check(scaled(places) if arguments.scale else places, edges)
    put(f"{answer}\n")
    return 0 if answer else 1


def _stacked(arguments: Arguments) -> int:
    from .formats import write_planar_code
    from .makers import stacked
    put(write_planar_code([stacked(arguments.size, arguments.number)]))
    return 0


def _picture(arguments: Arguments) -> int:
    from .formats import read_figures
    from .pictures import picture
    figures = read_figures(read_input())
    if not 1 <= arguments.figure <= len(figures):
        raise ValueError("the text has no figure" if not figures else
                         f"the text has {len(figures)} figures, and none with the place {arguments.figure}")
    put(picture(figures[arguments.figure - 1], arguments.side, not arguments.no_numbers, arguments.style))
    return 0


def _page(arguments: Arguments) -> int:
    from .formats import read_figures
    from .page_texts import page, page_name, pages
    from .runs import run
    data = read_input()
    try:
        result = run(arguments.job, data)
    except PigaleError as fault:
        if fault.run.status == 2:
            raise
        print(f"pigale: {fault}", file=sys.stderr)
        result = fault.run
    figures: List[Figure] = read_figures(data)[:len(result.answers)] if arguments.job == "verify" else []
    look = (figures, arguments.side, not arguments.no_numbers, arguments.style)
    if arguments.to is None:
        if len(result.answers) > 1000:
            print(f"pigale: a page of {len(result.answers)} answers is slow to open; with --to FOLDER it becomes several",
                  file=sys.stderr)
        put(page(result, *look))
    else:
        os.makedirs(arguments.to, exist_ok=True)
        for k, text in enumerate(pages(result, *look)):
            with open(os.path.join(arguments.to, page_name(k)), "w", encoding="utf-8") as file:
                file.write(text)
        first = os.path.join(arguments.to, page_name(0))
        print(f"pigale: {k + 1} page{'s' * (k > 0)}, of which the first is {first}", file=sys.stderr)
    return 0 if result.status < 2 else 3
