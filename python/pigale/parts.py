"""Cuts inputs of any size at records: planar_code, lines of graph6, and the text of figures.

A part is some whole records that stand one after another. The program reads it as an input of its own, and answers to
its records what it would answer within the whole. The last part has what is left where an input ends badly, so that the
program names the bad place. Only what has not been cut off yet is kept of an input.

What is mended on the way stands in docs/FORMATS.md, "What is mended": headers of files that were joined and the byte orders
that they name, line ends, empty lines, and a last line that is not closed.
"""
from __future__ import annotations

import functools
import re
from bisect import bisect_right
from typing import Any, BinaryIO, Callable, Iterable, Iterator, List, Literal, NamedTuple, Optional, Sequence, Tuple

from .basics import HEADER, MOST_BYTES, MOST_VERTICES, PLANAR_JOBS
from .library import cut, library_with

GRAPH_HEADER = b">>graph6<<"
PLANAR_HEADER = re.compile(rb">>planar_code *(le|be)? *<<")
# what a line begins with outside a figure
HEADS = (b"figure ", b"count ", b"refused ", b"verdict ", b"end ", b"stop ")

Read = Callable[[int], bytes]
Size = Callable[[], int]
Order = Literal["big", "little"]  # of the bytes of a wide number: which of them is first


class Part:
    """A part of an input, as the program is to read it.

    `records` is the number of its whole records, and `first` that of all records before it. `byte` is where it begins in
    the input, and `place` what stands before it in the numbers of bad places: bytes of planar_code, graphs of graph6,
    lines of figures. `left_out` has an entry for each byte of a header of planar_code, and for each empty line of
    figures, that was left out of `data`: where it stood, in rising order.
    """
    __slots__ = ("data", "records", "first", "place", "byte", "left_out")

    def __init__(self, data: bytes, records: int, first: int, place: int, byte: int, left_out: Sequence[int] = ()) -> None:
        self.data, self.records, self.first, self.place, self.byte, self.left_out = data, records, first, place, byte, left_out

    def place_of(self, number: int) -> int:
        """Where in the whole input a bad place is that the program names by `number` in this part."""
        return self.place + number + bisect_right(self.left_out, number)


def parts_of(job: str, read: Read, size: Size) -> Iterator[Part]:
    """The parts of an input of a job, in order, each of about as many bytes as `size` says then; one at least.

    `read` gives up to so many bytes of the input, and none at its end. A record that is larger than an input may be
    stands in a part of its own, which the program refuses.
    """
    if job in PLANAR_JOBS:
        return planar_parts(read, size)
    return graph_parts(read, size) if job == "embed" else figure_parts(read, size)


def joined(job: str, records: Iterable[bytes], size: Size) -> Iterator[Part]:
    """The parts of an input whose records are given one by one, as bytes that belong to no header; one part at least."""
    pieces: List[bytes] = []
    first = length = byte = 0
    # what stands behind the header that `write_planar_code` writes
    place = len(HEADER) if job in PLANAR_JOBS else 0

    def part() -> Part:
        nonlocal pieces, first, place, length, byte
        data = (GRAPH_HEADER + b"\n" if job == "embed" else b"") + b"".join(pieces)
        made = Part(data, len(pieces), first, place, byte)
        first += len(pieces)
        byte += length
        place += {"embed": len(pieces), "verify": data.count(b"\n")}.get(job, length)
        pieces, length = [], 0
        return made

    limit = size()
    for record in records:
        if pieces and length + len(record) > limit:
            yield part()
            limit = size()
        pieces.append(record)
        length += len(record)
    if pieces or not first:
        yield part()


def unpacked(source: BinaryIO) -> Read:
    """Reads a binary file, unpacked where gzip packed it; faults of reading are OSError, EOFError and zlib.error."""
    head = source.read(3)

    def read(size: int) -> bytes:
        """Up to so many bytes, at once or not, or all where it is below 0."""
        nonlocal head
        if size < 0:
            found, head = head, b""
            return found + source.read()
        found, head = head[:size], head[size:]
        return found or source.read(size)

    if head != b"\x1f\x8b\x08":
        return read
    import gzip
    packed: Any = _File(read)
    return gzip.GzipFile(fileobj=packed).read


class _File:
    """A file that is only read."""

    def __init__(self, read: Read):
        self.read = read


# planar_code

class _Whole(NamedTuple):
    """The whole records at the front of some data: where they end, their number, their bytes as the program reads them,
    where bytes of headers were left out of these, and whether a bad count follows."""
    end: int
    records: int
    data: bytes
    left_out: List[int]
    is_bad: bool


def planar_parts(read: Read, size: Size) -> Iterator[Part]:
    """The parts of planar_code."""
    data, first, place, is_first, records = b"", 0, 0, True, _Records()
    while True:
        limit = size()
        chunk = read(max(limit, len(data)))
        data += chunk
        while len(data) >= limit or not chunk:
            whole = records.whole(data, limit)
            if whole.end:
                yield Part(whole.data, whole.records, first, place, place, whole.left_out)
                is_first = False
            data, first, place = data[whole.end:], first + whole.records, place + whole.end
            if whole.is_bad:
                yield Part(records.plain(data[:3]), 0, first, place, place)
                return
            if not whole.end:
                break
        if len(data) > MOST_BYTES:
            yield Part(records.plain(data[:MOST_BYTES + 1]), 0, first, place, place)
            return
        if not chunk:
            # some bytes of a record that does not end do not end either
            if data or is_first:
                yield Part(records.plain(data[:3]), 0, first, place, place)
            return


class _Records:
    """Cuts whole records off the front of planar_code.

    It keeps what the records so far say of later ones: the byte order of wide ones, and whether all may have one number
    of vertices.
    """

    def __init__(self) -> None:
        self.order: Order = "big"
        self.is_uniform = True
        self.library = library_with("pigale_cut")

    def plain(self, record: bytes) -> bytes:
        """Returns a record, or the first bytes of one, with the greater byte of each wide number first."""
        if self.order == "big" or not record.startswith(b"\0"):
            return record
        numbers = record[1:len(record) - (len(record) - 1) % 2]
        swapped = bytearray(numbers)
        swapped[::2], swapped[1::2] = numbers[1::2], numbers[::2]
        return b"\0" + bytes(swapped) + record[1 + len(numbers):]

    def whole(self, data: bytes, limit: int) -> _Whole:
        """Returns the whole records that begin before a limit."""
        at = kept = records = taken = 0
        pieces: List[bytes] = []
        left_out: List[int] = []
        limit = min(limit, len(data))
        is_bad = False

        def keep(until: int, plain: bytes) -> None:
            nonlocal kept, taken
            pieces.append(plain)
            taken += len(plain)
            kept = until

        while at < limit:
            count = data[at]
            header = PLANAR_HEADER.match(data, at) if count == HEADER[0] else None
            if header:
                keep(at, data[kept:at])
                left_out += [taken] * len(header[0])
                at = kept = header.end()
                self.order = "little" if header[1] == b"le" else "big"
                continue
            if self.library and self.order == "big" and count != HEADER[0] and data.find(HEADER[:-2], at, limit) < 0:
                length, number = cut(self.library, data[at:limit])
                if number:
                    at, records = at + length, records + number
                    continue
            if count and count != HEADER[0] and self.is_uniform and limit - at > 4096:
                length, number = _uniform_records(data[at:limit], count)
                if number:
                    at, records = at + length, records + number
                    continue
                self.is_uniform = False
            if count:
                found = _narrow_record(count)(data, at)
                end: Optional[int] = found.end() if found else 0
            else:
                end = _wide_end(data, at, self.order)
                is_bad = end is None
            if not end:
                break
            if not count and self.order == "little":
                keep(at, data[kept:at])
                keep(end, self.plain(data[at:end]))
            at, records = end, records + 1
        keep(at, data[kept:at])
        return _Whole(at, records, b"".join(pieces), left_out, is_bad)


def _uniform_records(data: bytes, count: int) -> Tuple[int, int]:
    """Where the whole records end, and their number, where each of them has `count` vertices; (0, 0) where not."""
    lists = data.split(b"\0")
    number = (len(lists) - 1) // count
    if b"".join([head[:1] for head in lists[:number * count:count]]) != bytes([count]) * number:
        return 0, 0
    rest = lists[number * count:]
    return len(data) - sum(map(len, rest)) - len(rest) + 1, number


@functools.lru_cache(maxsize=None)
def _narrow_record(count: int) -> Callable[[bytes, int], Optional["re.Match[bytes]"]]:
    """Matches a narrow record of `count` vertices."""
    return re.compile(rb"(?:[^\0]*\0){%d}" % count).match


def _wide_end(data: bytes, at: int, order: Order) -> Optional[int]:
    """Where the wide record ends that begins at a place: 0 where the data end before that, None where its count is bad."""
    if len(data) < at + 3:
        return 0
    count, at = int.from_bytes(data[at + 1:at + 3], order), at + 3
    if not 1 <= count <= MOST_VERTICES:
        return None
    size = 32 * count
    while True:
        taken = data[at:at + size]
        taken = taken[:len(taken) // 2 * 2]
        # a byte for each number, 0 where that is
        joint = int.from_bytes(taken[::2], "big") | int.from_bytes(taken[1::2], "big")
        lists = joint.to_bytes(len(taken) // 2, "big").split(b"\0", count)
        if len(lists) > count:
            return at + 2 * (len(taken) // 2 - len(lists[count]))
        if at + size >= len(data):
            return 0
        size *= 2


# graph6 and figures

def graph_parts(read: Read, size: Size) -> Iterator[Part]:
    """The parts of graph6, each behind a header, so that no line of it can be one."""
    first = byte = 0
    for piece in _pieces(read, size, _line_end):
        data = _plain_lines(piece.replace(GRAPH_HEADER, b"\n"), len(piece) <= MOST_BYTES)
        yield Part(GRAPH_HEADER + b"\n" + data, data.count(b"\n"), first, first, byte)
        first, byte = first + data.count(b"\n"), byte + len(piece)


def figure_parts(read: Read, size: Size) -> Iterator[Part]:
    """The parts of a text of figures, each of which begins with a line that stands outside figures."""
    first = lines = byte = 0
    for piece in _pieces(read, size, _head):
        data = _plain_lines(piece, len(piece) <= MOST_BYTES)
        figures = data.count(b"\nfigure ") + data.startswith(b"figure ")
        yield Part(data, figures, first, lines, byte, _empty_lines(piece))
        first, lines, byte = first + figures, lines + piece.count(b"\n"), byte + len(piece)


def _plain_lines(text: bytes, is_whole: bool) -> bytes:
    """The lines of a text without empty ones, each ended by one byte 10.

    Where the text `is_whole`, its last line is closed; else it goes on until it is longer than an input may be.
    """
    text = text.replace(b"\r\n", b"\n")
    if b"\n\n" in text or text.startswith(b"\n"):
        text = re.sub(rb"\n\n+", b"\n", text).lstrip(b"\n")
    if not is_whole:
        return text + bytes(max(0, MOST_BYTES + 1 - len(text)))
    return text if text.endswith(b"\n") or not text else text + b"\n"


def _empty_lines(text: bytes) -> List[int]:
    """For each empty line of a text, how many other lines there are until the next one of these, that one counted."""
    if not re.search(rb"(?:^|\n)\r?\n", text):
        return []
    found, others = [], 1
    for line in text.split(b"\n")[:-1]:
        if line in (b"", b"\r"):
            found.append(others)
        else:
            others += 1
    return found


def _pieces(read: Read, size: Size, cut: Callable[[bytes, int], int]) -> Iterator[bytes]:
    """The bytes of an input in pieces that end where `cut` says; the last one has what is left, and may be empty."""
    data = b""
    while True:
        limit = size()
        chunk = read(max(limit, len(data)))
        data += chunk
        end = cut(data, limit)
        while end and len(data) >= limit:
            yield data[:end]
            data, limit = data[end:], size()
            end = cut(data, limit)
        if not chunk or len(data) > MOST_BYTES:
            yield data[:MOST_BYTES + 1]
            return


def _line_end(data: bytes, limit: int) -> int:
    """Behind the last line that is closed before a limit, or else the first one; 0 where there is none."""
    return data.rfind(b"\n", 0, limit) + 1 or data.find(b"\n", limit) + 1


def _head(data: bytes, limit: int) -> int:
    """The last line before a limit that stands outside figures, or else the first one; 0 where there is none."""
    last = max(data.rfind(b"\n" + head, 0, limit) for head in HEADS) + 1
    return last or min((at for at in (data.find(b"\n" + head, limit - 8) + 1 for head in HEADS) if at), default=0)
