#!/usr/bin/env python3
"""Pigale beside other programs for planar graphs, on the same inputs.

  measure.py           the rows of two tables of bench/README.md
  measure.py --small   the same on a few graphs of each input, to see that all works

Builds the drivers of this folder against Debian's packages (libboost-graph-dev, libplanarity-dev), takes nauty's planarg
and geng (nauty) and Python's networkx, and says what is not there. Instructions are counted by valgrind; milliseconds
are those on a processor, the least of three runs, for networkx of one. Each answer of each program is judged by pigale:
maps by `count`, drawings and Kuratowski subgraphs by `verify`. Makes its inputs under bench/out/, the same ones each
time. Not part of the gate.
"""
import importlib.util
import itertools
import os
import random
import resource
import shutil
import subprocess
import sys

HERE = os.path.dirname(os.path.abspath(__file__))
sys.path.insert(0, os.path.join(HERE, ".."))
sys.path.insert(0, os.path.join(HERE, "..", "..", "python"))
import count  # noqa: E402
import pigale  # noqa: E402

OUT = count.OUT


# Programs

def built(name, compiler, source, *libraries):
    """The driver's path, or nothing where it does not build."""
    path = os.path.join(OUT, name)
    command = [compiler, "-O2", "-w", "-o", path, os.path.join(HERE, source), *libraries]
    done = subprocess.run(command, stderr=subprocess.PIPE, text=True, check=False)
    if done.returncode:
        print(f"left out: {name}, which does not build: {done.stderr.splitlines()[0]}", flush=True)
    return path if done.returncode == 0 else None


def programs():
    """(name, what it does, command, the reader of its output) of each program that is there."""
    yield "pigale embed", "draws", [pigale.program(), "embed"], of_pigale
    boost = built("boost", "g++", "boost.cpp")
    if boost:
        yield "Boost", "embeds", [boost, "test"], of_lines("map")
        yield "Boost", "draws", [boost, "draw"], of_lines("places")
    libplanarity = built("libplanarity", "gcc", "libplanarity.c", "-lplanarity")
    if libplanarity:
        yield "libplanarity", "embeds", [libplanarity], of_lines("map")
    planarg = shutil.which("nauty-planarg") or shutil.which("planarg")
    if planarg:
        yield "planarg", "embeds", [planarg, "-p", "-q"], of_planarg
    else:
        print("left out: planarg, which is not there", flush=True)
    if importlib.util.find_spec("networkx"):
        driver = [sys.executable, os.path.join(HERE, "by_networkx.py")]
        yield "networkx", "embeds", [*driver, "test"], of_lines("map")
        yield "networkx", "draws", [*driver, "draw"], of_lines("places")
    else:
        print("left out: networkx, which is not there", flush=True)
    print("left out: OGDF, of which Debian has no package to build against", flush=True)


# Answers: for each graph ("map", lists), ("places", places), ("witness", edges), ("figure", figure) or None

def of_pigale(text, graphs):
    return [("figure", answer) for answer in pigale.read_blocks(text)[:len(graphs)]]


def of_lines(kind):
    def read(text, _graphs):
        answers = []
        for line in text.decode().splitlines():
            word, *numbers = line.split()
            numbers = list(map(int, numbers))
            if word == "k":
                answers.append(("witness", list(zip(numbers[::2], numbers[1::2]))))
            elif kind == "places":
                answers.append(("places", list(zip(numbers[::2], numbers[1::2]))))
            else:
                answers.append(("map", lists_of(numbers)))
        return answers
    return read


def lists_of(numbers):
    lists = [[]]
    for u in numbers:
        if u:
            lists[-1].append(u)
        else:
            lists.append([])
    return lists[:-1]


def of_planarg(data, graphs):
    """The maps of planarg, which drops the graphs that are not planar: each is that of the next graph with its edges."""
    maps, answers = iter(pigale.read_planar_code(data)), []
    lists = next(maps, None)
    for n, edges in graphs:
        is_its = lists is not None and len(lists) == n and pigale.edges_of(lists) == sorted(edges)
        answers.append(("map", lists) if is_its else None)
        lists = next(maps, None) if is_its else lists
    return answers


# The judge

def wrong_ones(graphs, planar, answers):
    """How many answers are wrong: none for a planar graph, or one that the program does not take."""
    if len(answers) != len(graphs):
        return len(graphs)
    wrong, maps, drawings, figures = 0, [], [], []
    for graph, is_planar, answer in zip(graphs, planar, answers):
        if answer is None or is_planar == (answer[0] == "witness" or answer[0] == "figure" and answer[1].job == "witness"):
            wrong += is_planar or answer is not None
        elif answer[0] == "map":
            wrong += pigale.edges_of(answer[1]) != sorted(graph[1])
            maps.append(answer[1])
        elif answer[0] == "places":
            drawings.append((dict(enumerate(answer[1], 1)), graph[1]))
        else:
            figure = answer[1] if answer[0] == "figure" else witness_of(graph, answer[1])
            wrong += figure is None
            figures += [] if figure is None else [figure]
    wrong += sum(not isinstance(a, pigale.Count) or a.genus > 0 for a in judged("count", maps))
    wrong += sum(not answer for answer in pigale.check_all(drawings))
    return wrong + sum(a.name != "yes" for a in judged("verify", figures))


def judged(job, records):
    return itertools.chain(*(pigale.run(job, batch).answers for batch in batches(records, 200)))


def batches(items, size):
    return [items[k:k + size] for k in range(0, len(items), size)]


def witness_of(graph, edges):
    """The edges of a subdivision of K5 or K3,3 as a witness, which the program judges, or nothing where they are not just
    those of one."""
    beside = {}
    for u, v in edges:
        beside.setdefault(u, []).append(v)
        beside.setdefault(v, []).append(u)
    branches = sorted(v for v, us in beside.items() if len(us) > 2)
    tracks = {}
    for first in branches:
        for v in beside[first]:
            track = [first, v]
            while track[-1] not in branches and len(track) <= len(edges):
                track.append(next((u for u in beside[track[-1]] if u != track[-2]), first))
            tracks[first, track[-1]] = track
    if len(branches) == 6:
        far = [v for v in branches if (branches[0], v) in tracks]
        branches = [v for v in branches if v not in far] + far
        pairs = [(u, v) for u in branches[:3] for v in branches[3:]]
    else:
        pairs = list(itertools.combinations(branches, 2))
    if len(branches) not in (5, 6) or any(pair not in tracks for pair in pairs):
        return None
    kind = "K5" if len(branches) == 5 else "K33"
    witness = pigale.WitnessFigure(1, kind, pigale.write_graph6(graph), branches, [tracks[pair] for pair in pairs])
    return witness if pigale.witness_graph(witness)[1] == sorted(tuple(sorted(edge)) for edge in edges) else None


# Inputs

def inputs(small):
    """(name, graphs) of each input."""
    source, geng = random.Random(1), shutil.which("nauty-geng") or shutil.which("geng")
    if geng:
        done = subprocess.run([geng, "-c", "-q", "5" if small else "7"], stdout=subprocess.PIPE, text=True, check=True)
        yield "all connected graphs of seven vertices", [pigale.read_graph6(line) for line in done.stdout.split()]
    else:
        print("left out: the graphs of geng, which is not there", flush=True)
    few = 3 if small else 40

    def whole(n):
        return n, pigale.edges_of(pigale.renumbered(pigale.triangulation(n, source), source))

    yield "triangulations of 255 vertices", [whole(255) for _ in range(few)]
    parts = [whole(200) for _ in range(few)]
    yield "planar graphs of 200 vertices and 396 edges", [(n, sorted(source.sample(edges, 396))) for n, edges in parts]
    pairs = list(itertools.combinations(range(1, 101), 2))
    yield "random graphs of 100 vertices and 200 edges", [(100, sorted(source.sample(pairs, 200))) for _ in range(few)]


# The tables

def milliseconds(command, path, runs=3):
    """The least time on a processor of some runs, and the output."""
    times = []
    for _ in range(runs):
        before = resource.getrusage(resource.RUSAGE_CHILDREN)
        with open(path, "rb") as file:
            done = subprocess.run(command, stdin=file, stdout=subprocess.PIPE, stderr=subprocess.DEVNULL, check=False)
        after = resource.getrusage(resource.RUSAGE_CHILDREN)
        times.append(after.ru_utime + after.ru_stime - before.ru_utime - before.ru_stime)
    return 1000 * min(times), done.stdout


def peers_table(small):
    found = list(programs())
    print("| Input | Program | It | Instructions a graph | Milliseconds a graph | Wrong |")
    print("|---|---|---|---|---|---|")
    for name, graphs in inputs(small):
        path = os.path.join(OUT, "peers.g6")
        with open(path, "w", encoding="ascii") as file:
            file.writelines(f"{pigale.write_graph6(graph)}\n" for graph in graphs)
        planar = None
        for program, does, command, read in found:
            taken, output = milliseconds(command, path, 1 if program == "networkx" else 3)
            answers = read(output, graphs)
            planar = planar or [figure.job != "witness" for _, figure in answers]
            used = "" if program == "networkx" else f"{count.instructions(command, path) // len(graphs):,}"
            wrong = wrong_ones(graphs, planar, answers)
            label = f"{name}: {sum(planar)} of {len(graphs)} are planar" if program == "pigale embed" else ""
            print(f"| {label} | {program} | {does} | {used} | {taken / len(graphs):.3f} | {wrong} |", flush=True)


def jobs_table(small):
    source = random.Random(2)
    few = 20 if small else 1000

    def some(n, make):
        return pigale.write_planar_code([pigale.renumbered(make(n), source) for _ in range(few)])

    stacked = [some(n, lambda n: pigale.triangulation(n, source)) for n in (12, 60, 255)]
    squares = [pigale.write_planar_code([pigale.quadrangle(*sides)] * few) for sides in ((2, 4), (7, 8), (13, 19))]
    path = os.path.join(OUT, "jobs.plc")

    def rate(job, data):
        with open(path, "wb") as file:
            file.write(data)
        return f"{1000 * few / milliseconds([pigale.program(), job], path)[0]:,.0f}"

    print("| Job | Maps of 12 vertices a second | of 60 | of 251 to 255 |")
    print("|---|---|---|---|")
    for job in pigale.PLANAR_JOBS:
        print(f"| `{job}` | " + " | ".join(rate(job, data) for data in (squares if job == "rect" else stacked)) + " |", flush=True)
    drawn = [pigale.run("shift", data).text.encode() for data in stacked]
    print("| `verify`, of figures of `shift` | " + " | ".join(rate("verify", text) for text in drawn) + " |", flush=True)


def main():
    os.makedirs(OUT, exist_ok=True)
    small = "--small" in sys.argv[1:]
    peers_table(small)
    print()
    jobs_table(small)


if __name__ == "__main__":
    main()
