#!/usr/bin/env python3
"""The answers that the program gives to its runs, in one file, and what else gives the same.

  tools/answers.py PROGRAM [WORD..]     runs a program, by the words given, on each run of release/answers.json.gz, and says
                                        where its status or its text is another; as tools/answers.py wine pigale.exe
  tools/answers.py --library LIBRARY    calls `pigale_run` of a shared library in this process instead
  tools/answers.py --write PROGRAM      makes release/answers.json.gz of what a program answers; tools/release does

A run is words, the bytes of an input, a status and the bytes of a text. They are those of tools/runs.py whose input has less
than a mebibyte. The file needs neither the kit nor the sources. The status is 1 where any answer is another."""
import base64
import ctypes
import gzip
import json
import os
import subprocess
import sys
from concurrent.futures import ThreadPoolExecutor

ROOT = os.path.dirname(os.path.dirname(os.path.realpath(__file__)))
FILE = f"{ROOT}/release/answers.json.gz"
MOST = 1 << 20  # bytes of an input


def answer(program, words, given):
    """Returns the status and the text of a program, a list of the words that run it, for an input."""
    ran = subprocess.run([*program, *words], input=given, stdout=subprocess.PIPE, stderr=subprocess.DEVNULL, timeout=300, check=False)
    return ran.returncode, ran.stdout


def many(program, runs):
    """Returns what a program answers to each run of words and an input, as many side by side as there are processors."""
    with ThreadPoolExecutor(os.cpu_count()) as pool:
        return list(pool.map(lambda run: answer(program, *run), runs))


def fits_a_call(words):
    """Says whether `pigale_run` can be given these words, which it parts at spaces."""
    return all(word and " " not in word for word in words)


def write(program, to=FILE):
    """Writes the file of what a program, a list of words, answers; the same answers give the same bytes."""
    from runs import all_runs  # pylint: disable=import-outside-toplevel
    runs = [run for run in all_runs() if len(run[1]) < MOST]
    rows = [{"words": words, "input": base64.b64encode(given).decode(), "status": status, "text": base64.b64encode(text).decode()}
            for (words, given), (status, text) in zip(runs, many(program, runs))]
    lines = "[\n" + ",\n".join(json.dumps(row) for row in rows) + "\n]\n"
    with open(to, "wb") as file:
        file.write(gzip.compress(lines.encode(), 9, mtime=0))
    return len(rows)


def read():
    """Returns the runs, each as words and an input, and the answers to them, each as a status and a text."""
    with gzip.open(FILE) as file:
        rows = json.load(file)
    runs = [(tuple(row["words"]), base64.b64decode(row["input"])) for row in rows]
    return runs, [(row["status"], base64.b64decode(row["text"])) for row in rows]


def of_library(path):
    """Returns a function that has `pigale_run` of a library answer a run."""
    call, size = ctypes.CDLL(os.path.abspath(path)).pigale_run, ctypes.c_size_t
    call.argtypes = [ctypes.c_char_p, size, ctypes.c_char_p, size, ctypes.c_void_p, size, ctypes.POINTER(size)]
    call.restype = ctypes.c_uint8

    def answered(words, given):
        room, length, command = 65536 + 32 * len(given), size(), " ".join(words).encode()
        while True:
            text = ctypes.create_string_buffer(room)
            status = call(command, len(command), given, len(given), text, room, ctypes.byref(length))
            if length.value <= room:
                return status, text.raw[:length.value]
            room = length.value

    return answered


def differ(runs, wanted, found, by):
    """Returns how many answers are others than those wanted, and names the first of them."""
    wrong = [run for run, want, have in zip(runs, wanted, found) if want != have]
    for words, given in wrong[:20]:
        print(f"answers: {by} answers otherwise than the program: {' '.join(words)} on {len(given)} bytes")
    print(f"answers: {by}: {len(runs)} runs compared with the program, {len(wrong)} differ")
    return len(wrong)


def hold(program, by=None, tries=1):
    """Holds a program, a list of words, to the file; returns how many of its answers are others. With more tries than one a run
    that is answered otherwise is made again, by itself, which is said."""
    runs, wanted = read()
    found = many(program, runs)
    by = by or os.path.basename(program[-1])
    for _ in range(tries - 1):
        for at, (run, want) in enumerate(zip(runs, wanted)):
            if found[at] != want:
                print(f"answers: {by} is asked again: {' '.join(run[0])}, which ended with status {found[at][0]} and {len(found[at][1])} bytes")
                found[at] = answer(program, *run)
    return differ(runs, wanted, found, by)


def hold_library(path):
    """Holds the call `pigale_run` of a shared library to the file; returns how many of its answers are others."""
    pairs = [(run, want) for run, want in zip(*read()) if fits_a_call(run[0])]
    answered = of_library(path)
    return differ(*zip(*pairs), [answered(*run) for run, _ in pairs], os.path.basename(path))


def main(words):
    if len(words) == 2 and words[0] == "--write":
        print(f"answers: {write(words[1:])} runs, {os.path.getsize(FILE):,} bytes")
        return 0
    if len(words) == 2 and words[0] == "--library":
        return 1 if hold_library(words[1]) else 0
    if not words or words[0].startswith("-"):
        sys.exit(__doc__)
    return 1 if hold(words) else 0


if __name__ == "__main__":
    sys.exit(main(sys.argv[1:]))
