"""Runs the program within this process, by the library libpigale, where that is there."""
import ctypes
import functools
import os
import sys
from typing import Optional, Sequence, Tuple

LIBRARY_NAMES = {"darwin": "libpigale.dylib", "win32": "pigale.dll"}  # of a system whose library is called otherwise

@functools.lru_cache(maxsize=None)
def loaded(path: str) -> ctypes.CDLL:
    """The library at a path, with the types of the call that is used here."""
    library = ctypes.CDLL(path)
    size = ctypes.c_size_t
    library.pigale_run.argtypes = [ctypes.c_char_p, size, ctypes.c_char_p, size, ctypes.c_void_p, size, ctypes.POINTER(size)]
    library.pigale_run.restype = ctypes.c_uint8
    if hasattr(library, "pigale_cut"):
        library.pigale_cut.argtypes = [ctypes.c_char_p, size, ctypes.c_uint8, ctypes.POINTER(size), ctypes.POINTER(size)]
        library.pigale_cut.restype = ctypes.c_uint8
    return library


def library() -> Optional[str]:
    """The path of the library, or None where the program is to be run.

    The environment variable PIGALE_LIBRARY names it. Where that is not set, and PIGALE names no program either, it is the
    one beside this package, as in a wheel, or else the one that tools/library made in this repository of its sources.
    """
    named = os.environ.get("PIGALE_LIBRARY")
    if named is not None:
        return named or None
    if os.environ.get("PIGALE"):
        return None
    return own_library()


@functools.lru_cache(maxsize=None)
def own_library() -> Optional[str]:
    """The path of the library beside this package, or else of the one that was made in this repository of its sources."""
    here = os.path.dirname(os.path.realpath(__file__))
    beside = os.path.join(here, LIBRARY_NAMES.get(sys.platform, "libpigale.so"))
    return beside if os.path.exists(beside) else made_library(os.path.abspath(os.path.join(here, "..", "..")))


@functools.lru_cache(maxsize=None)
def made_library(top: str) -> Optional[str]:
    """The path of the library that tools/library made in a repository, or None where it is not of the sources there now."""
    folder = os.path.join(top, "out", "library")
    if not os.path.exists(os.path.join(folder, "sources")):
        return None
    import subprocess
    try:
        with open(os.path.join(folder, "sources"), encoding="ascii") as file:
            noted = file.read().split()
        found = subprocess.run([os.path.join(top, "tools", "sources"), "pigale_c"], stdout=subprocess.PIPE, check=True).stdout
    except (OSError, ValueError, subprocess.CalledProcessError):
        return None
    made = os.path.join(folder, "libpigale.so")
    return made if noted == found.decode("ascii").split() and os.path.exists(made) else None


def answered(path: str, words: Sequence[str], data: bytes, capacity: Optional[int] = None) -> Tuple[int, str]:
    """The status and the text of a run of the program's words over an input, by the library at a path.

    `capacity` is the room for the text at first; where the text is longer the run is made once more.
    """
    call, command, length = loaded(path).pigale_run, " ".join(words).encode(), ctypes.c_size_t()
    room = capacity or 65536 + 32 * len(data)
    while True:
        text = ctypes.create_string_buffer(room)
        status = call(command, len(command), data, len(data), text, room, ctypes.byref(length))
        if length.value <= room:
            return status, text.raw[:length.value].decode("ascii")
        room = length.value


def cut(path: str, data: bytes) -> Tuple[int, int]:
    """Where the whole records end at the front of planar_code, and how many they are, by the library at a path."""
    end, records = ctypes.c_size_t(), ctypes.c_size_t()
    if loaded(path).pigale_cut(data, len(data), 0, ctypes.byref(end), ctypes.byref(records)):
        raise MemoryError("there was not enough memory for the library")
    return end.value, records.value


def library_with(name: str) -> Optional[str]:
    """The path of a library that has a call of this name, or None where there is none, or none that can be loaded."""
    path = library()
    try:
        return path if path and hasattr(loaded(path), name) else None
    except OSError:
        return None
