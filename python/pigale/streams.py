"""Standard input and output as the program treats them, writes that are whole, and signals that end a command."""
import io
import os
import select
import signal
import stat
import sys
import threading
from contextlib import contextmanager
from types import FrameType
from typing import IO, Any, BinaryIO, Iterator, Optional, Union

OUTPUT_LOST = "standard output is closed or full: what was written is the beginning of the answers, and no more"
INPUT_LOST = "standard input cannot be read, or not to its end; the answers are those to the records before that"


class InputFault(OSError):
    """Standard input is closed, or cannot be read."""


class OutputFault(OSError):
    """Standard output is closed, or takes no more."""


class Ended(BaseException):
    """A signal asks the command to end; `number` is the signal's."""

    def __init__(self, number: int) -> None:
        super().__init__(number)
        self.number = number


def write_all(sink: "IO[bytes]", data: bytes) -> None:
    """Writes all bytes of `data` to `sink`, which may be a raw file whose `write` takes a part of them at a time.

    Waits where the file takes nothing for now. Raises OSError where it takes no more.
    """
    while data:
        try:
            taken: Any = sink.write(data)
        except BlockingIOError as fault:
            taken = fault.characters_written
            select.select([], [sink], [])
        if taken is None and isinstance(sink, io.RawIOBase):
            taken = 0
            select.select([], [sink], [])
        data = data[len(data) if taken is None else taken:]


def standard_input() -> BinaryIO:
    """Returns standard input as a binary file. Raises InputFault where it is closed."""
    if sys.stdin is None:
        raise InputFault("standard input is closed")
    return sys.stdin.buffer


def read_input() -> bytes:
    """Returns all bytes of standard input. Raises InputFault where it cannot be read."""
    try:
        return standard_input().read()
    except InputFault:
        raise
    except OSError as fault:
        raise InputFault(f"standard input cannot be read: {fault}") from fault


def require_output() -> None:
    """Raises OutputFault where standard output is closed, before anything is done for it."""
    if sys.stdout is None:
        raise OutputFault(OUTPUT_LOST)


def put(data: Union[str, bytes]) -> None:
    """Writes all of a text, as UTF-8, or of some bytes to standard output. Raises OutputFault where it takes no more."""
    require_output()
    try:
        write_all(sys.stdout.buffer, data.encode("utf-8") if isinstance(data, str) else data)
        sys.stdout.buffer.flush()
    except OSError as fault:
        raise OutputFault(OUTPUT_LOST) from fault


def cut_output(length: int) -> None:
    """Cuts standard output, which is a file, off behind its first bytes. Raises ValueError where it is none, or has fewer."""
    require_output()
    file = sys.stdout.fileno()
    about = os.fstat(file)
    if not stat.S_ISREG(about.st_mode):
        raise ValueError("a run goes on in the file of what it wrote, as standard output by >>")
    if about.st_size < length:
        raise ValueError(f"standard output has {about.st_size} bytes, and the run wrote {length} by its log: it goes on in the same file, "
                         "by >> and not by >")
    os.ftruncate(file, length)
    os.lseek(file, 0, os.SEEK_END)


def forget_output() -> None:
    """Drops what standard output has not taken, so that nothing is said of it when the command ends."""
    if sys.stdout is not None:
        try:
            os.dup2(os.open(os.devnull, os.O_WRONLY), sys.stdout.fileno())
        except (OSError, ValueError):
            pass


SIGNALS = [getattr(signal, name) for name in ("SIGINT", "SIGTERM", "SIGHUP") if hasattr(signal, name)]


@contextmanager
def signals_end() -> Iterator[None]:
    """Has a signal that asks for the end raise Ended, once; a second one ends the command at once.

    A signal that is ignored, as SIGHUP is under `nohup`, stays so. Only the main thread gets signals; in another one nothing
    is changed.
    """
    if threading.current_thread() is not threading.main_thread():
        yield
        return

    def end(number: int, _: Optional[FrameType]) -> None:
        for other in found:
            signal.signal(other, signal.SIG_DFL)
        raise Ended(number)

    found = {number: signal.getsignal(number) for number in SIGNALS if signal.getsignal(number) != signal.SIG_IGN}
    for number in found:
        signal.signal(number, end)
    try:
        yield
    finally:
        for number, handler in found.items():
            signal.signal(number, handler)


def end_by(number: int) -> int:
    """Ends this process by a signal, so that whoever started it sees which; returns a status where that fails."""
    signal.signal(number, signal.SIG_DFL)
    os.kill(os.getpid(), number)
    return 128 + number
