#!/usr/bin/env python3
"""Whether any job has a slow input: instructions a vertex by size, over families of maps, figures and graphs.

  slopes.py             all families at 60, 255, 1,000 and 4,095 vertices; `!` where a size costs more than 1.3 times the
                        least of the smaller ones
  slopes.py NAME ..     those families alone
  slopes.py --limits    the inputs that have been slow, each beside the most that it should take

Counted by valgrind, with what the job takes on an empty input taken off; glibc's copying by `rep` is turned off, since
valgrind counts it by bytes. Not part of the gate.
"""
import functools
import math
import os
import random
import re
import subprocess
import sys

import count
import families
import pigale

SIZES = (60, 255, 1000, 4095)


def put(data):
    os.makedirs(count.OUT, exist_ok=True)
    path = os.path.join(count.OUT, "slopes.in")
    with open(path, "wb") as out:
        out.write(data)
    return path


@functools.lru_cache(maxsize=None)
def start(job):
    """The instructions of the start of the program: what a job takes on an empty input."""
    return count.instructions([count.PROGRAM, job], put(b""))


def cost(job, data):
    return count.instructions([count.PROGRAM, job], put(data)) - start(job)


def answer(job, data):
    return subprocess.run([count.PROGRAM, job], input=data, stdout=subprocess.PIPE, check=False).stdout


def records(make, size):
    """Some 4,000 vertices of the family in maps of this size, and how many vertices that is."""
    lists = make(size)
    times = max(1, 4000 // len(lists))
    return count.record(lists) * times, len(lists) * times


def late_crossing(figure):
    """A straight-line figure with the places of its last two vertices exchanged."""
    lines = figure.decode().split("\n")
    at = [i for i, line in enumerate(lines) if re.match(r"\d+ at ", line)][-2:]
    places = [re.search(r" at (\S+ \S+):", lines[i]).group(1) for i in at]
    for i, place in zip(at, reversed(places)):
        lines[i] = re.sub(r" at \S+ \S+:", f" at {place}:", lines[i])
    return "\n".join(lines).encode()


def late_move(figure):
    """A straight-line figure with its last vertex moved a little, to a place that is free."""
    lines = figure.decode().split("\n")
    at = [i for i, line in enumerate(lines) if re.match(r"\d+ at ", line)]
    places = [tuple(map(int, re.search(r" at (\S+) (\S+):", lines[i]).groups())) for i in at]
    width, height = (max(place[i] for place in places) for i in (0, 1))
    (x, y), taken = places[-1], set(places)
    ways = ((x + i, y + j) for d in range(3, 200) for i, j in ((d, 1), (-d, 1), (1, d), (1, -d)))
    free = next((x, y) for x, y in ways if 0 <= x <= width and 0 <= y <= height and (x, y) not in taken)
    lines[at[-1]] = re.sub(r" at \S+ \S+:", " at {} {}:".format(*free), lines[at[-1]])
    return "\n".join(lines).encode()


def points(n, number):
    """A triangulation with its vertices at random places of the grid, no two at one."""
    source = random.Random(number)
    lists = pigale.triangulation(n, source)
    places = [(place % (2 * n - 3), place // (2 * n - 3)) for place in source.sample(range((2 * n - 3) * (n - 1)), n)]
    lines = [f"{v} at {x} {y}: {' '.join(map(str, us))}" for v, ((x, y), us) in enumerate(zip(places, lists), 1)]
    return (f"figure 1 shift {n}\n" + "\n".join(lines) + "\n").encode()


def long_path(length):
    """A subdivision of K5 in a graph of nine vertices, whose first path goes to and fro along so many entries."""
    first = "path 1 " + "6 7 " * (length // 4) + "8 9 " * (length // 4) + "2"
    rest = [f"path {a} {b}" for a in range(1, 6) for b in range(a + 1, 6)][1:]
    graph = families.graph6((9, [(a, b) for b in range(9) for a in range(b)]))
    return "\n".join([f"figure 1 witness K5 {graph}", "branch 1 2 3 4 5", first, *rest, ""]).encode()


def with_sides(figure, change):
    """A figure of rectangles in which the sides of the last three, as texts, are changed."""
    lines = figure.decode().split("\n")
    at = [i for i, line in enumerate(lines) if re.match(r"\d+ x ", line)][-3:]
    sides = [re.search(r" x (\S+) (\S+) y (\S+) (\S+):", lines[i]).groups() for i in at]
    for i, new in zip(at, change(*sides)):
        lines[i] = re.sub(r" x .*:", " x {} {} y {} {}:".format(*new), lines[i])
    return "\n".join(lines).encode()


def late_contact(figure):
    """A column whose last rectangles but one are exchanged."""
    return with_sides(figure, lambda a, b, c: (b, a, c))


def late_overlap(figure):
    """A column whose last rectangle is as high as the last two together."""
    return with_sides(figure, lambda a, b, c: (a, b, c[:3] + b[3:]))


def row(name, job, costs):
    least, said = None, []
    for value in costs:
        said.append(f"{value:.0f}{'!' if least and value > 1.3 * least else ''}")
        least = value if least is None else min(least, value)
    print(f"| {name} | {job} | {' | '.join(said)} |", flush=True)


def slopes(names):
    print("| Family | Job | " + " | ".join(f"{n:,}" for n in SIZES) + " |\n|---|---|" + "---|" * len(SIZES))
    for name, (make, jobs) in families.MAPS.items():
        if names and name not in names:
            continue
        inputs = [records(make, size) for size in SIZES]
        for job in jobs:
            row(name, job, [cost(job, data) / vertices for data, vertices in inputs])
            if job == "count":
                continue
            figures = [(answer(job, data), vertices) for data, vertices in inputs]
            if b"figure" in figures[0][0]:
                row(name, f"verify of {job}", [cost("verify", text) / vertices for text, vertices in figures])
                if job in ("shift", "convex"):
                    row(name, f"verify of {job}, one late crossing", [cost("verify", late_crossing(text)) / n for text, n in figures])


def hostile(strip, side):
    """One figure: a strip without crossing, and behind it a drawn complete bipartite graph with great numbers."""
    n = strip + 2 * side
    lists = [[u for u in (v - 1, v + 1) if 1 <= u <= strip] for v in range(1, strip + 1)]
    left, right = range(strip + 1, strip + side + 1), range(strip + side + 1, n + 1)
    lists += [list(right)] * side + [list(left)] * side
    places = [(v, 0) for v in range(strip)] + [(v, 10) for v in range(side)] + [(v, 20) for v in range(side)]
    lines = [f"{v} at {x} {y}: {' '.join(map(str, us))}" for v, ((x, y), us) in enumerate(zip(places, lists), 1)]
    return (f"figure 1 shift {n}\n" + "\n".join(lines) + "\n").encode()


def gaps(columns, rows, side):
    """One figure: a grid with diagonals in the gap of each fan of a drawn complete bipartite graph, lists out of order."""
    inner, n = columns * rows, columns * rows + 2 * side
    lists = [[] for _ in range(inner)]
    for i in range(columns):
        for j in range(rows):
            for u, v in ((i + 1, j), (i, j + 1), (i + 1, j + 1)):
                if u < columns and v < rows:
                    lists[i * rows + j].append(u * rows + v + 1)
                    lists[u * rows + v].append(i * rows + j + 1)
    left, right = range(inner + 1, inner + side + 1), range(inner + side + 1, n + 1)
    lists += [list(right) for _ in left] + [list(left) for _ in right]
    source = random.Random(1)
    for neighbours in lists:
        source.shuffle(neighbours)
    places = [(2700 + i, 1400 + j) for i in range(columns) for j in range(rows)] + [(0, 1000 + j) for j in range(side)]
    places += [(3000, j if j < side // 2 else n - 2 - side + j) for j in range(side)]
    lines = [f"{v} at {x} {y}: {' '.join(map(str, us))}" for v, ((x, y), us) in enumerate(zip(places, lists), 1)]
    return (f"figure 1 shift {n}\n" + "\n".join(lines) + "\n").encode()


def one_column(side):
    """A complete bipartite graph as bars one above the other, with all its edges in one column."""
    lists = [range(side + 1, 2 * side + 1)] * side + [range(1, side + 1)] * side
    lines = [f"{v} y {v - 1} x 0 0: {' '.join(map(str, us))}" for v, us in enumerate(lists, 1)]
    return (f"figure 1 bars {2 * side}\n" + "\n".join(lines) + "\ncolumns" + " 0" * side ** 2 + "\n").encode()


def hubs_and_heads(columns, rows, corner, hubs, heads):
    """A grid with diagonals from a corner on, and edges from each of some places for hubs to each of some for heads."""
    inner, n = columns * rows, columns * rows + len(hubs) + len(heads)
    cell = {(i, j): i * rows + j for i in range(columns) for j in range(rows)}
    lists = [[] for _ in range(inner)]
    for (i, j), v in cell.items():
        for beside in ((i + 1, j), (i, j + 1), (i + 1, j + 1)):
            if beside in cell:
                lists[v].append(cell[beside] + 1)
                lists[cell[beside]].append(v + 1)
    lists += [list(range(inner + len(hubs) + 1, n + 1))] * len(hubs) + [list(range(inner + 1, inner + len(hubs) + 1))] * len(heads)
    places = [(corner[0] + i, corner[1] + j) for i, j in cell] + hubs + heads
    lines = [f"{v} at {x} {y}: {' '.join(map(str, us))}" for v, ((x, y), us) in enumerate(zip(places, lists), 1)]
    return (f"figure 1 shift {n}\n" + "\n".join(lines) + "\n").encode()


def fans(columns, rows, hubs, heads, low):
    """A grid with diagonals in the gap between the heads of some hubs, which have their heads in common."""
    n = columns * rows + hubs + heads
    middle, behind = (n - 2 - hubs) // 2, n - 1 - heads
    return hubs_and_heads(columns, rows, (2700, low), [(0, middle + j) for j in range(hubs)],
                          [(3000, j if j < heads // 2 else behind + j) for j in range(heads)])


def wedge(columns, rows, hubs, heads):
    """A grid beside the heads of some hubs, which are seen from there in one narrow wedge, some near and some far."""
    n = columns * rows + hubs + heads
    width, height = 2 * n - 4, n - 2
    posts, found, seen, source = [(0, j) for j in range(hubs)], [], [set() for _ in range(hubs)], random.Random(1)
    while len(found) < heads:
        if len(found) < heads // 2:
            place = width - source.randrange(width // 8), int(height * 0.86) + source.randrange(int(height * 0.14))
        else:
            x = int(width * 0.3) + source.randrange(int(width * 0.15))
            place = x, int(x * (0.425 + 0.085 * source.random()))
        ways = [(place[0] // d, (place[1] - j) // d) for j in range(hubs) for d in [math.gcd(place[0], place[1] - j)]]
        if not any(way in of_hub for way, of_hub in zip(ways, seen)):
            found.append(place)
            for way, of_hub in zip(ways, seen):
                of_hub.add(way)
    return hubs_and_heads(columns, rows, (int(width * 0.7), int(height * 0.36)), posts, found)


def two_rows(hubs, n):
    """Two rows of vertices, of which some at the left end of each have edges to some at the right end of the other."""
    half = n // 2
    columns = list(range(hubs)) + [hubs + 5 + i for i in range(half - 2 * hubs)] + [2 * n - 3 - hubs + i for i in range(hubs)]
    order = list(range(hubs)) + list(range(half - hubs, half)) + list(range(hubs, half - hubs))
    number = {(c, y): 2 * k + y + 1 for k, c in enumerate(order) for y in (0, 1)}
    lines = []
    for c in order:
        for y in (0, 1):
            ends = range(half - hubs, half) if c < hubs else range(hubs) if c >= half - hubs else ()
            lines.append(f"{number[c, y]} at {columns[c]} {y}: {' '.join(str(number[d, 1 - y]) for d in ends)}".rstrip())
    return (f"figure 1 shift {2 * half}\n" + "\n".join(lines) + "\n").encode()


def limits():
    """(what, million instructions, the most that it should take)"""
    one = lambda make: count.record(make(4095))
    yield "verify: bars of 4,095 vertices", cost("verify", answer("bars", one(families.stacked))), 40
    tiles = answer("rect", one(families.column))
    yield "verify: a column of 4,095 rectangles", cost("verify", tiles), 40
    yield "verify: a column of 4,095 rectangles with a late wrong contact", cost("verify", late_contact(tiles)), 40
    yield "verify: a column of 4,095 rectangles with a late overlap", cost("verify", late_overlap(tiles)), 40
    drawn = answer("shift", one(families.stacked))
    yield "verify: a drawing of 4,095 vertices with one late crossing", cost("verify", late_crossing(drawn)), 300
    yield "verify: K(300,300) as bars with its edges in one column", cost("verify", one_column(300)), 70
    yield "verify: a grid of 3,172 vertices between the heads of 850 hubs with 64 each", cost("verify", fans(13, 244, 850, 64, 700)), 800
    yield "verify: a grid of 2,002 vertices between the heads of eight hubs with 2,000 each", cost("verify", fans(13, 154, 8, 2000, 1300)), 300
    yield "verify: a strip of 1,500 vertices, and K(400,400) behind it", cost("verify", hostile(1500, 400)), 1500
    yield "verify: a grid of 1,560 vertices in the gaps of K(400,400)", cost("verify", gaps(13, 120, 400)), 6000
    text = wedge(60, 57, 150, 525)
    yield "verify: a grid of 3,420 vertices beside a narrow wedge of 150 hubs with 525 heads each", cost("verify", text), len(text) * 0.003
    text = two_rows(200, 4094)
    yield "verify: two rows of 2,047, of which 200 at each end are joined with the other row", cost("verify", text), len(text) * 0.003
    yield "verify: 4,095 points at random", cost("verify", points(4095, 1)), 250
    squares = count.record(families.shuffled(families.crossed_square(4095)))
    yield "verify: a grid with diagonals, its last two vertices exchanged", cost("verify", late_crossing(answer("shift", squares))), 100
    yield "verify: stairs, drawn by schnyder, the last vertex moved", cost("verify", late_move(answer("schnyder", one(families.stairs)))), 100
    yield "verify: a subdivision with a path of 262,000 entries", cost("verify", long_path(262000)), 70
    yield "verify: a convex double wheel of 4,095", cost("verify", answer("convex", one(families.double_wheel))), 30
    yield "convex: a wheel of 4,095, hub last", cost("convex", one(families.wheel_last)), 30
    yield "convex: a double wheel of 4,095", cost("convex", one(families.double_wheel)), 30
    yield "convex: a comb of 4,095", cost("convex", one(families.comb)), 30
    yield "convex: refused for a late pair, 4,095", cost("convex", one(families.wheel_with_pair)), 60
    yield "convex: refused for late pairs on large faces, 4,095", cost("convex", one(families.halved_wheel)), 60
    yield "rect: a column between two hubs, one last, 4,095", cost("rect", one(families.column_hub_last)), 40
    for name, graph in families.GRAPHS.items():
        yield f"embed: {name}", cost("embed", (families.graph6(graph) + "\n").encode()), 4 if "wheel" in name else 2.6
    yield "embed: 10,000 lines of a graph of six vertices with twelve edges", cost("embed", b"EF~w\n" * 10_000), 280
    yield "embed: 10,000 lines of K5", cost("embed", b"D~{\n" * 10_000), 110
    for job, most in (("shift", 42), ("schnyder", 48)):
        yield f"{job}: 10,000 records of three vertices without edges", cost(job, b"\3\0\0\0" * 10_000), most


def main():
    if "--limits" in sys.argv[1:]:
        print("| Input | Million instructions | At most |\n|---|---|---|")
        for what, found, most in limits():
            print(f"| {what} | {found / 1e6:.1f}{'!' if found > most * 1e6 else ''} | {most:g} |", flush=True)
    else:
        slopes(sys.argv[1:])


if __name__ == "__main__":
    main()
