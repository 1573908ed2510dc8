#!/usr/bin/env python3
"""The Python package on maps of 20 vertices: processor time, memory, and how many round drawings are judged plane.

  package.py            microseconds a map or figure, the least of many runs, and the memory of one run in inputs
  package.py --round    how many drawings are round of maps that nauty and this package make: half an hour

It asks the library as the package finds it (PIGALE_LIBRARY may name one). Not part of the gate."""
import gc
import os
import random
import subprocess
import sys
import time
import tracemalloc

ROOT = os.path.dirname(os.path.dirname(os.path.realpath(__file__)))
sys.path.insert(0, f"{ROOT}/python")
import pigale
from pigale.library import library

COUNT, VERTICES = 250, 20
NAUTY = [(f"three-connected, {n} vertices", f"nauty-geng -C -q -d3 {n} | nauty-planarg -p -q", True) for n in range(4, 11)]
NAUTY.append(("connected, 8 vertices", "nauty-geng -c -q 8 | nauty-planarg -p -q", False))


def least(call, times=60):
    """Returns the least processor time of a call."""
    best = float("inf")
    for _ in range(times):
        gc.collect()
        start = time.process_time()
        kept = call()
        best = min(best, time.process_time() - start)
        del kept
    return best


def tell_time(name, call, count=COUNT):
    """Prints the microseconds of a call over so many things for each of them."""
    print(f"{name:44} {least(call) / count * 1e6:9.2f} us", flush=True)


def tell_memory(name, call, size):
    """Prints the most memory of Python within a call, in sizes of its input."""
    tracemalloc.start()
    kept = call()
    print(f"{name:44} {tracemalloc.get_traced_memory()[1] / size:9.2f} inputs", flush=True)
    tracemalloc.stop()
    del kept


def times():
    """Prints what the calls take."""
    source = random.Random(3)
    maps = [pigale.triangulation(VERTICES, source) if k % 2 else pigale.stacked(VERTICES, k) for k in range(COUNT)]
    many, data = pigale.Maps(maps), pigale.write_planar_code(maps, header=False)
    for job in ("shift", "schnyder", "convex", "bars"):
        tell_time(f"draw, {job}, lists", lambda: pigale.draw(maps, job))
        tell_time(f"draw, {job}, lists, looked at", lambda: list(pigale.draw(maps, job)))
        tell_time(f"draw, {job}, arrays", lambda: pigale.draw(many, job))
        tell_time(f"draw, {job}, planar_code", lambda: pigale.draw(data, job))
    tell_time("count, arrays", lambda: pigale.count(many))
    figures = pigale.draw(many, "schnyder")
    listed = list(figures)
    drawings = [(figure.places, [(v - 1, u - 1) for v, u in pigale.edges_of(figure.lists)]) for figure in listed]
    tell_time("check, lists of places and edges", lambda: [pigale.check(*drawing) for drawing in drawings])
    tell_time("check_all, arrays", lambda: pigale.check_all(figures))
    tell_time("check_all, figures", lambda: pigale.check_all(listed))
    graphs = [(VERTICES, pigale.edges_of(lists)) for lists in maps]
    lines = [pigale.write_graph6(graph) for graph in graphs]
    tell_time("embed, lists of edges", lambda: pigale.embed(graphs))
    tell_time("embed, lines of graph6", lambda: pigale.embed(lines))
    tell_time("picture", lambda: [pigale.picture(figure) for figure in listed[:20]], 20)
    tell_time("picture, without labels", lambda: [pigale.picture(figure, labels=False) for figure in listed[:20]], 20)
    lines = [line.encode().decode() for line in lines * 80]
    tell_memory("embed, lines of graph6", lambda: pigale.embed(lines), sum(map(sys.getsizeof, lines)) + 8 * len(lines))
    tell_memory("draw, planar_code", lambda: pigale.draw(data * 80), 80 * len(data))


def rounds(name, maps):
    """Prints of how many maps the drawing is round."""
    found = [drawn.method for k in range(0, len(maps), 200) for drawn in pigale.draw_named(list(map(pigale.Named.of_map, maps[k:k + 200])))]
    print(f"{name:44} {found.count('round'):7} of {len(found)} round", flush=True)


def main():
    if not library():
        sys.exit("package.py: there is no library")
    if sys.argv[1:] != ["--round"]:
        times()
        return
    rounds("stacked, 120 vertices", [pigale.stacked(120, k) for k in range(40)])
    for name, command, is_three in NAUTY:
        maps = pigale.Maps(subprocess.run(command, shell=True, stdout=subprocess.PIPE, check=True).stdout)
        statuses = pigale.draw(maps, "convex").statuses
        rounds(name, [maps.lists(k) for k in range(len(maps)) if not (is_three and statuses[k])])


main()
