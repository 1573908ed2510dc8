#!/usr/bin/env python3
"""How fast figures are read and judged by `pigale verify`: instructions a byte, counted by valgrind.

  figures.py            on texts of a million bytes
  figures.py --memory   peak memory on a text of 16 MiB

Figures whose first list names a vertex that is not there are refused at once, so they show what reading costs; notes
show what passing over a line costs; drawings of `shift` and `schnyder` are judged in full. Not part of the gate.
"""
import os
import subprocess
import sys

import count

OUT = count.OUT


def run(words, data):
    return subprocess.run([count.PROGRAM, *words], input=data, stdout=subprocess.PIPE, check=False).stdout


def repeated(text, size):
    return text * max(1, size // len(text))


def texts(size):
    maps = b"".join(count.record(count.triangulation(255)) for _ in range(12))
    drawn = {job: run([job], maps).rsplit(b"end ", 1)[0] for job in ("shift", "schnyder")}
    lines = drawn["shift"].split(b"\n")
    lines = [line.replace(b":", b": 65535", 1) if line.startswith(b"1 at ") else line for line in lines]
    yield "notes", repeated(run(["count"], maps), size)
    yield "figures refused at their first number", repeated(b"\n".join(lines), size)
    for job, text in drawn.items():
        yield f"figures of {job}, 255 vertices", repeated(text, size)


def main():
    os.makedirs(OUT, exist_ok=True)
    memory = "--memory" in sys.argv[1:]
    for name, text in texts(15_800_000 if memory else 1 << 20):
        path = os.path.join(OUT, "figures.txt")
        with open(path, "wb") as out:
            out.write(text)
        if memory:
            taken, most = count.seconds([count.PROGRAM, "verify"], path)
            print(f"{name}: {len(text)} bytes, {taken:.3f} s, {most:.0f} MB at most", flush=True)
        else:
            print(f"{name}: {count.instructions([count.PROGRAM, 'verify'], path) / len(text):.1f} instructions a byte", flush=True)


if __name__ == "__main__":
    main()
