#!/usr/bin/env python3
"""How long each job takes on streams of records, each row beside C and beside the most that it should take.

  streams.py                   all rows of time
  streams.py JOB ..            the rows of these jobs
  streams.py memory            megabytes at most, of 16 MiB of input
  streams.py --clock JOB ..    with the clock too, C in turn; wants a quiet machine

Time is in model milliseconds: (instructions / 4 + 30 * mispredicted branches) / 3.2 million, counted by valgrind's cachegrind
with a branch predictor of its own, and what the same command takes on an empty input taken off. That lies near the clock,
and does not move with load; it knows nothing of caches. Streams of maps have 200,000 bytes. `!` stands where a row takes
more than it should. C is flat_shift.c for `count`, `shift` and `schnyder` of triangulations, plain_count.c for other counts,
and lean_bars.c for `bars`. The maps and graphs of eight vertices are made by nauty, and left out where it is not installed.
Not part of the gate.
"""
import os
import random
import re
import resource
import shutil
import subprocess
import sys

import count
import families
import pigale
import slopes

SIZE = 200_000
WHOLE = 15_800_000
CLOCKED = 4_000_000

EIGHT = "all connected plane maps of 8 vertices"
WIDE = "trees and paths of 4,000, wide"
TRIANGULATIONS = {
    "triangulations of 10 to 60 vertices": "a",
    "triangulations of 255 vertices": "b",
    "triangulations of 6 to 12 vertices": "e",
    "triangulations of 4,095, wide": "w",
}
OTHERS = {"trees and paths of 20 to 254": "d", WIDE: "p"}

# The C programs: source and flags.
C_PROGRAMS = {
    "flat count": ("flat_shift.c", ["-DCOUNT"]),
    "plain count": ("plain_count.c", []),
    "flat shift": ("flat_shift.c", []),
    "lean bars": ("lean_bars.c", []),
}

# The most model milliseconds of each job, by stream.
MOST = {
    "count": {"a": 1.8, "b": 2.1, "d": 1.85, "p": 0.99, "e": 2.7, "w": 0.96, EIGHT: 3.5},
    "shift": {"a": 5.8, "b": 5.9, "d": 11.3, "e": 6.7, "w": 2.8, EIGHT: 10.1},
    "schnyder": {"a": 5.9, "b": 5.9, "e": 6.9, EIGHT: 10.7},
    "bars": {"a": 6.6, "b": 6.4, "e": 8.6, EIGHT: 7.1},
    "convex": {"a": 11.8, "b": 11.6, "e": 12.7},
}


def counted(command, path):
    """The model milliseconds of a command with this input, its start included."""
    with open(path, "rb") as data:
        done = subprocess.run(["valgrind", "--tool=cachegrind", "--cache-sim=no", "--branch-sim=yes", "--cachegrind-out-file=/dev/null", *command],
                              stdin=data, stdout=subprocess.DEVNULL, stderr=subprocess.PIPE, text=True, check=False)
    found = [int(re.search(what + r": *([\d,]+)", done.stderr)[1].replace(",", "")) for what in ("I *refs", "Mispredicts")]
    return (found[0] / 4 + 30 * found[1]) / 3.2e6


STARTS = {}


def model(command, data):
    """The model milliseconds that a command takes for an input."""
    if tuple(command) not in STARTS:
        STARTS[tuple(command)] = counted(command, slopes.put(b""))
    return counted(command, slopes.put(data)) - STARTS[tuple(command)]


def processor_seconds(command, path):
    before = resource.getrusage(resource.RUSAGE_CHILDREN)
    with open(path, "rb") as data:
        subprocess.run(command, stdin=data, stdout=subprocess.DEVNULL, check=False)
    after = resource.getrusage(resource.RUSAGE_CHILDREN)
    return after.ru_utime + after.ru_stime - before.ru_utime - before.ru_stime


def in_turn(commands, data):
    """The nanoseconds of processor that each command takes for a byte, the least of seven runs, one command after another."""
    path = slopes.put(data * max(1, CLOCKED // len(data)))
    size, best = os.path.getsize(path), [float("inf")] * len(commands)
    for _ in range(7):
        best = [min(old, processor_seconds(command, path)) for old, command in zip(best, commands)]
    return [taken / size * 1e9 for taken in best]


def compiled(name):
    """A C program, compiled."""
    os.makedirs(count.OUT, exist_ok=True)
    source, flags = C_PROGRAMS[name]
    path = os.path.join(count.OUT, name.replace(" ", "_"))
    subprocess.run(["cc", "-O2", "-w", *flags, "-o", path, os.path.join(count.HERE, source)], check=True)
    return [path]


def by_nauty(command):
    """What a command of nauty prints, or nothing where it is not installed."""
    if not shutil.which("nauty-geng"):
        return b""
    return subprocess.run(command, shell=True, stdout=subprocess.PIPE, check=True).stdout


def maps():
    """(name, short name, stream) of each stream of maps."""
    for name, data in count.inputs(SIZE):
        short = {**TRIANGULATIONS, **OTHERS}.get(name)
        if short:
            yield name, short, data
    data = by_nauty("nauty-geng -c -q 8 | nauty-planarg -p -q")
    if data:
        yield EIGHT, EIGHT, data


def c_beside(job, short):
    """The C program that does a job on a stream, or None."""
    narrow = short in ("a", "b", "e")
    if job == "count":
        return "flat count" if narrow else "plain count"
    if job in ("shift", "schnyder") and narrow:
        return "flat shift"
    return "lean bars" if job == "bars" and narrow else None


def line(n, edges, source):
    numbers = list(range(n))
    source.shuffle(numbers)
    return families.graph6((n, [(numbers[u], numbers[v]) for u, v in edges]))


def planar(n, source):
    """The edges of a triangulation, each of them there with a chance of four in five."""
    lists = pigale.triangulation(n, source)
    return [(v - 1, u - 1) for v, us in enumerate(lists, 1) for u in us if v < u and source.random() < 0.8]


def random_edges(n, m, source):
    edges = set()
    while len(edges) < m:
        edges.add(tuple(sorted(source.sample(range(n), 2))))
    return sorted(edges)


def one_more(n, source):
    lists = pigale.triangulation(n, source)
    edges = {(v - 1, u - 1) for v, us in enumerate(lists, 1) for u in us if v < u}
    while True:
        extra = tuple(sorted(source.sample(range(n), 2)))
        if extra not in edges:
            return sorted(edges | {extra})


def graphs():
    """(what, lines, the most milliseconds)"""
    source = random.Random(11)
    kinds = (
        ("1,000 planar graphs of 12 vertices", 1000, 12, lambda: planar(12, source), 6.1),
        ("1,000 planar graphs of 62 vertices", 1000, 62, lambda: planar(62, source), 37.1),
        ("200 planar graphs of 255 vertices", 200, 255, lambda: planar(255, source), 32.2),
        ("1,000 random graphs of 62 vertices, none planar", 1000, 62, lambda: random_edges(62, 124, source), 16.1),
        ("200 random graphs of 255 vertices, none planar", 200, 255, lambda: random_edges(255, 510, source), 12.5),
        ("200 triangulations of 255 vertices with one edge more", 200, 255, lambda: one_more(255, source), 12.8),
    )
    for what, times, n, make, most in kinds:
        yield what, "".join(line(n, make(), source) + "\n" for _ in range(times)).encode(), most
    data = by_nauty("nauty-geng -q 8")
    if data:
        yield "all graphs of 8 vertices", data, 36.9


def quadrangles():
    """A stream of grids with diagonals, of 3 by 3 to 8 by 8."""
    source = random.Random(1)
    return count.fill([count.record(pigale.quadrangle(source.randrange(3, 9), source.randrange(3, 9))) for _ in range(400)], SIZE)


def figures():
    """(what, figures, the most milliseconds): drawings to judge"""
    streams = {short: data for _, short, data in maps()}
    most = {"a": (5.6, 18.1, 13.8), "e": (8.3, 21.7, 19.4)}
    for short, name in (("a", "10 to 60"), ("e", "6 to 12")):
        for job, at_most in zip(("shift", "convex", "bars"), most[short]):
            yield f"what `{job}` draws of {name}", slopes.answer(job, streams[short]), at_most
    yield "what `rect` draws of small grids", slopes.answer("rect", quadrangles()), 12.5


def rows(job):
    """(what, input, the name of the C program or None, the most milliseconds) of a job"""
    if job in MOST:
        for name, short, data in maps():
            if short in MOST[job]:
                yield name, data, c_beside(job, short), MOST[job][short]
    elif job == "rect":
        yield "grids of 3 by 3 to 8 by 8 with diagonals", quadrangles(), None, 15.0
        yield "a grid of 63 by 63 with diagonals", count.record(pigale.quadrangle(63, 63)), None, 1.43
    elif job == "verify":
        for what, data, most in figures():
            yield what, data, None, most
    elif job == "embed":
        for what, data, most in graphs():
            yield what, data, None, most


def memory():
    """(what, megabytes, the most)"""
    complete = next(data for name, data in count.inputs(WHOLE) if name.startswith("one complete graph"))
    cut_short = complete[:-4] + complete[-2:]
    numbers = b" 2" * (WHOLE // 2)
    long_line = b"figure 1 shift 3\n1 at 0 0:" + numbers + b"\n2 at 1 0: 1\n3 at 0 1: 1\n"
    long_bar = b"figure 1 bars 3\n1 y 0 x 0 1:" + numbers + b"\n2 y 1 x 0 1: 1\n3 y 2 x 0 1: 2\ncolumns 0 0\n"
    spaces = b" " * WHOLE
    for what, job, data, most in (
        ("`count` of one complete graph", "count", complete, 67),
        ("`count` of it, its last list cut short", "count", cut_short, 67),
        ("`shift` of it, refused for its genus", "shift", complete, 80),
        ("`verify` of one line of 7.9 million neighbours, of a straight-line drawing", "verify", long_line, 140),
        ("`verify` of one line of 7.9 million neighbours, of a bar", "verify", long_bar, 140),
        ("`verify` of one line of spaces", "verify", b"figure 1 shift 3" + spaces + b"\n", 40),
        ("`verify` of one line of spaces, of a bar", "verify", b"figure 1 bars 3\n" + spaces + b"\n", 40),
    ):
        yield what, count.seconds([count.PROGRAM, job], slopes.put(data))[1], most


def say(job, what, data, beside, most, clock):
    """Prints the row of a job on an input."""
    commands = [[count.PROGRAM, job]] + ([compiled(beside)] if beside else [])
    found = [model(command, data) for command in commands]
    cells = [f"`{job}`: {what}", f"{found[0]:.2f}{'!' if found[0] > most else ''}", f"{found[1]:.2f}" if beside else "", f"{most}"]
    if clock:
        cells.append(", ".join(f"{it:.1f}" for it in in_turn(commands, data)))
    print("| " + " | ".join(cells) + " |", flush=True)


def main():
    clock = "--clock" in sys.argv[1:]
    wanted = [it for it in sys.argv[1:] if it != "--clock"] or [*MOST, "rect", "verify", "embed"]
    if wanted == ["memory"]:
        print("| Input | Megabytes | At most |\n|---|---|---|")
        for what, found, most in memory():
            print(f"| {what} | {found:.0f}{'!' if found > most else ''} | {most} |", flush=True)
        return
    print("| Input | Model ms | C | At most |" + (" Clock, C |" if clock else "") + "\n|---|---|---|---|" + ("---|" if clock else ""))
    for job in wanted:
        for what, data, beside, most in rows(job):
            say(job, what, data, beside, most, clock)


if __name__ == "__main__":
    main()
