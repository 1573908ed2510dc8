"""A process that answers parts of an input by the library, for `parallel`. It is started as a script, and imports little.

Its words are the library's path, the words of the job, `text` or `table`, and the numbers of files that it shares with the
process that started it. In each of these stands a part, and then the answers to it, or a table of these. Standard input says
which part is due, and standard output how it went. It ends with its standard input.
"""
from __future__ import annotations

import ctypes
import marshal
import mmap
import os
import struct
import sys

TYPE_CHECKING = False
if TYPE_CHECKING:
    from typing import Any, Dict, Tuple, Union

TASK = struct.Struct("=BQI")  # the number of the file, the length of the part, and how many records stand before it
DONE = struct.Struct("=BQII")  # the status, the length of the text, and how many records were answered and were refused
PAGE = 1 << 16  # the text begins at the next multiple of it behind the part
ROOM, LEAST = 8, 4096  # bytes of text for each byte of a part, and of any, at first; a file grows where that does not do
# what a line says of its record, but for its number: its counts, what was made of it, the verdict, and the refusal
SAYINGS = {b"count": rb"(.*)", b"figure": rb"(?:witness )?(\w+)", b"verdict": rb"(\w+)", b"refused": rb"\d+ (\w+)"}


def tallied(text: Union[bytes, memoryview]) -> Dict[bytes, Dict[bytes, int]]:
    """How many lines of a text say the same of their records: for each first word what is said, and how often."""
    import collections
    import re
    lines = b"\n%b" % text
    found: Dict[bytes, Dict[bytes, int]] = {}
    for name, saying in SAYINGS.items():
        if b"\n%b " % name in lines:
            found[name] = dict(collections.Counter(re.findall(rb"\n%b \d+ %b" % (name, saying), lines)))
    return found


def text_at(length: int) -> int:
    """Where the text stands in a file, behind a part of so many bytes."""
    return -(-length // PAGE) * PAGE


def room_for(length: int) -> int:
    """The bytes of a file in which a part of so many bytes stands, and its text."""
    return text_at(length) + ROOM * length + LEAST


class _File:
    """A file that is shared, as memory."""

    def __init__(self, number: int) -> None:
        self.number, self.size, self.address = number, 0, 0
        self.memory: Any = None

    def map(self) -> None:
        """Takes all of the file into memory, where it was not or has grown."""
        size = os.fstat(self.number).st_size
        if size != self.size:
            self.memory = mmap.mmap(self.number, size)
            self.size, self.address = size, ctypes.addressof(ctypes.c_char.from_buffer(self.memory))


class _Sums(ctypes.Structure):
    """What was counted in a part."""
    _fields_ = [("records", ctypes.c_uint32), ("refused", ctypes.c_uint32)]


def answer(call: Any, words: bytes, file: _File, length: int, before: int) -> Tuple[int, int, int, int]:
    """Answers the part in a file, and writes the text behind it; returns the status, the length of the text, and the sums."""
    written, sums, at = ctypes.c_size_t(), _Sums(), text_at(length)
    while True:
        file.map()
        status = call(words, len(words), file.address, length, before, 0, 0, 1, file.address + at, file.size - at,
                      ctypes.byref(written), ctypes.byref(sums))
        if written.value <= file.size - at:
            return status, written.value, sums.records, sums.refused
        os.ftruncate(file.number, at + written.value)


def put_table(file: _File, length: int, written: int) -> int:
    """Writes a table of the answers to a part in their place; returns its length."""
    at = text_at(length)
    table = marshal.dumps(tallied(memoryview(file.memory)[at:at + written]))
    if at + len(table) > file.size:
        os.ftruncate(file.number, at + len(table))
        file.map()
    file.memory[at:at + len(table)] = table
    return len(table)


def main(path: str, job: str, form: str, *numbers: str) -> None:
    """Answers parts until standard input ends."""
    call = ctypes.CDLL(path).pigale_run_part
    size, address = ctypes.c_size_t, ctypes.c_void_p
    call.argtypes = [ctypes.c_char_p, size, address, size, ctypes.c_uint32, ctypes.c_uint32, size, ctypes.c_uint8, address, size,
                     address, address]
    call.restype = ctypes.c_uint8
    files = [_File(int(number)) for number in numbers]
    tasks, done = open(0, "rb", 0), open(1, "wb", 0)
    while True:
        task = tasks.read(TASK.size)
        if len(task) < TASK.size:
            return
        which, length, before = TASK.unpack(task)
        status, written, *sums = answer(call, job.encode("ascii"), files[which], length, before)
        if form == "table" and status < 2:
            written = put_table(files[which], length, written)
        try:
            done.write(DONE.pack(status, written, *sums))
        except BrokenPipeError:
            return  # whoever asked has ended


if __name__ == "__main__":
    main(*sys.argv[1:])
