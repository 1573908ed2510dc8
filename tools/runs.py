"""Runs of the program that need no more than words and input: those of examples/, of the gallery, and the rows of pigale_rows."""
import os
import subprocess
from importlib.machinery import SourceFileLoader
from importlib.util import module_from_spec, spec_from_loader

ROOT = os.path.dirname(os.path.dirname(os.path.realpath(__file__)))


def answer(program, words, given):
    """Returns the status and the text of a program, a path or the words that run it, for an input."""
    program = [program] if isinstance(program, str) else program
    ran = subprocess.run([*program, *words], input=given, capture_output=True, timeout=120, check=False)
    return ran.returncode, ran.stdout


def all_runs():
    """Returns the words and the input of each run, each once and in order."""
    return sorted({*examples(), *gallery(), *rows()})


def examples():
    """Yields the words and the input of each command of examples/commands.txt, on the whole input."""
    with open(f"{ROOT}/examples/commands.txt", encoding="utf-8") as file:
        lines = [line.rstrip("\n").split("\t") for line in file if line.strip() and not line.startswith("#")]
    for words, name in sorted({(words, given.split()[0]) for _, words, given in lines}):
        with open(f"{ROOT}/examples/{name}", "rb") as file:
            yield tuple(words.split()), file.read()


def gallery():
    """Yields the words of each job that reads maps or graphs, and each map and graph of the gallery as its input."""
    drawing = [(job, *form) for job in ("shift", "schnyder", "bars", "convex", "rect") for form in ((), ("--form", "svg"))]
    folder = f"{ROOT}/docs/gallery"
    for name in sorted(os.listdir(folder)):
        jobs = {"plc": [("count",), *drawing], "g6": [("embed",), ("embed", "--form", "svg")]}.get(name.rpartition(".")[2], ())
        for words in jobs:
            with open(f"{folder}/{name}", "rb") as file:
                yield words, file.read()


def rows():
    """Yields the words and the input of each run of pigale_rows whose input is given as bytes or text."""
    loader = SourceFileLoader("check_rows", f"{ROOT}/tools/check_rows")
    check_rows = module_from_spec(spec_from_loader("check_rows", loader))
    loader.exec_module(check_rows)
    for _, runs in check_rows.rows():
        for words, given, _ in runs or ():
            yield words, given
