"""Says what was likely meant where the program ends with another status than 0.

It goes by the words, and by the input where that is a file.
"""
import os
import re
import sys
from typing import List, Optional, Sequence

from .formats import MOST_BYTES
from .kinds import ending_kind, kind_of, looks_like, reading_hint
from .basics import HINTS, READING_JOBS, WHAT_WENT_WRONG
from .streams import INPUT_LOST, OUTPUT_LOST

JOBS = (*READING_JOBS, "gen")
OPTIONS = {"--form": ("shift", "schnyder", "bars", "convex", "rect", "embed"), "--size": ("gen",), "--number": ("gen",)}


def explained(words: Sequence[str], status: int) -> List[str]:
    """Returns what there is to say of a run of the program with these words, a line each."""
    if status == 2:
        return [blamed(words), "pigale --help has the words"]
    job = next((word for word in words if word in READING_JOBS), None)
    if status == 1:
        return _header_hint(job) if job else []
    if status == 3 and job:
        return _bad_input(job)
    if status == 4:
        return [INPUT_LOST]
    if status == 5:
        return [OUTPUT_LOST]
    if status > 128:
        return [f"the program was ended by signal {status - 128}: what was written is the beginning of the answers"]
    return [HINTS[status]] if status in HINTS else []


def blamed(words: Sequence[str]) -> str:
    """Says which of the words is likely the wrong one."""
    job: Optional[str] = None
    given: List[str] = []
    rest = list(words)
    while rest:
        word = rest.pop(0)
        name, is_joined, value = word.partition("=")
        if word == "--":
            continue
        if name in OPTIONS:
            if not is_joined and not rest:
                return f"no value follows {name}"
            given.append(f"{name}={value if is_joined else rest.pop(0)}")
        elif word.startswith("-") and word != "-":
            return f"there is no option {name!r}"
        elif job is None and word in JOBS:
            job = word
        elif job is None:
            return _no_job(word)
        else:
            return _too_much(job, word)
    if job is None:
        return "no word names a job"
    return _wrong_option(job, given)


def _no_job(word: str) -> str:
    if os.path.isdir(word):
        return f"{word!r} is no job but a folder"
    if os.path.exists(word):
        kind = ending_kind(word) or kind_of(_head_of(word))
        cure = f"pigale verify < {word}" if kind == "figures" else f"pigale draw {word} -o picture.svg"
        return f"{word!r} is no job but a file, as for: {cure}"
    near = [job for job in (*JOBS, "all", "check", "draw", "make", "page", "picture", "recode") if _is_near(job, word)]
    return f"{word!r} is no job" + (f"; {near[0]} is" if near else "")


def _is_near(one: str, other: str) -> bool:
    """Whether a word is another with one letter more, fewer or exchanged."""
    shorter, longer = sorted((one, other), key=len)
    if len(longer) - len(shorter) > 1 or len(shorter) < 3:
        return False
    at = len(os.path.commonprefix([shorter, longer]))
    return shorter[at:] == longer[at + 1:] or shorter[at + 1:] == longer[at + 1:] or sorted(one) == sorted(other)


def _too_much(job: str, word: str) -> str:
    if word in JOBS:
        return f"{job} and {word} are two jobs; each is a run by itself"
    if job == "gen":
        return f"{word!r} is no option of gen"
    return f"{word!r} is no option of {job}; a file stands behind <, as in: pigale {job} < {word}"


def _wrong_option(job: str, given: Sequence[str]) -> str:
    for option in given:
        name, _, value = option.partition("=")
        if job not in OPTIONS[name]:
            return f"{job} has no option {name}"
        if name == "--form" and value not in ("text", "svg"):
            return f"the form is text or svg, not {value!r}"
    if job == "gen":
        return "gen needs --size from 3 to 4095 and --number from 0 to 4294967295, each once"
    return "an option stands twice or behind --, or its value is none"


def _head_of(path: str, size: int = 4096) -> bytes:
    try:
        with open(path, "rb") as file:
            return file.read(size)
    except OSError:
        return b"\0"


def _given_file() -> Optional[str]:
    """The path by which standard input can be read once more, where it is a file; None where it is none."""
    try:
        return "/dev/stdin" if sys.stdin is not None and os.path.isfile("/dev/stdin") else None
    except OSError:
        return None


def _header_hint(job: str) -> List[str]:
    """What there is to say of headers that the program does not read, in an input that is a file."""
    path = _given_file()
    if path is None or job == "verify":
        return []
    head = _head_of(path, MOST_BYTES + 1)
    if re.match(rb">>planar_code *(le|be) *<<|>>planar_code +<<", head):
        return [f"the header names a byte order, which is no header to the program: pigale all {job} < FILE reads it"]
    if len(re.findall(rb">>(?:planar_code *(?:le|be)? *|graph6)<<", head)) > 1:
        return [f"the input has several headers, as of files that were joined: pigale all {job} < FILE reads them as one"]
    return []


def _bad_input(job: str) -> List[str]:
    """What there is to say of an input that has a bad place."""
    path = _given_file()
    head = _head_of(path) if path else b"\0"
    reads, found = reading_hint(job, head) if path else reading_hint(job, b"")
    said = [f"{reads}; {found}" if path and found else f"{reads} ({WHAT_WENT_WRONG})", *_header_hint(job)]
    if path is None or os.path.getsize(path) > MOST_BYTES:
        said.append(f"one run reads up to 16 MiB; of any size: pigale all {job} < FILE")
    elif job in ("embed", "verify") and b"\r\n" in head:
        said.append(f"its lines end by two bytes: pigale all {job} < FILE mends them")
    return said


__all__ = ["JOBS", "blamed", "explained", "looks_like"]
