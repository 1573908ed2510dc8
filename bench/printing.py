#!/usr/bin/env python3
"""How many instructions a byte it takes to print a drawing as text, counted by valgrind.

  printing.py FOLDER     FOLDER, outside the repository, takes a copy of it whose `shift` prints each figure twice

The input is triangulations of 255 vertices. Wants rt and valgrind. Not part of the gate.
"""
import os
import shutil
import subprocess
import sys

import count

HERE = os.path.dirname(os.path.abspath(__file__))
CALL = "            Form::Text => self.printer.print_grid(number, job, lists, points, out),\n"
TWICE = """            Form::Text => {
                let mut scratch = Vec::new(self.alloc);
                self.printer.print_grid(number, job, lists, points, &mut scratch)?;
                self.printer.print_grid(number, job, lists, points, out)
            }
"""


def twice(folder):
    """The program that prints each figure twice, and writes it once."""
    copy = os.path.join(folder, "pigale")
    shutil.copytree(os.path.join(HERE, ".."), copy, symlinks=True, ignore=shutil.ignore_patterns(".git"))
    path = os.path.join(copy, "crates", "pigale_shell", "src", "form_printer.rt")
    with open(path, encoding="utf-8") as file:
        text = file.read()
    assert text.count(CALL) == 1, path
    with open(path, "w", encoding="utf-8") as file:
        file.write(text.replace(CALL, TWICE))
    subprocess.run(["./pigale", "count"], cwd=copy, stdin=subprocess.DEVNULL, stdout=subprocess.DEVNULL, check=True)
    return os.path.join(copy, "crates", "pigale", "out", "pigale")


def main():
    if len(sys.argv) != 2:
        sys.exit(__doc__)
    folder = sys.argv[1]
    os.makedirs(folder)
    path = os.path.join(folder, "input.plc")
    with open(path, "wb") as out:
        out.write(b"".join(count.record(count.triangulation(255)) for _ in range(100)))
    text = subprocess.run([count.PROGRAM, "shift"], stdin=open(path, "rb"), stdout=subprocess.PIPE, check=True).stdout
    once, both = (count.instructions([program, "shift"], path) for program in (count.PROGRAM, twice(folder)))
    print(f"printing: {(both - once) / len(text):.1f} instructions a byte")


if __name__ == "__main__":
    main()
