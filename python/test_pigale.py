#!/usr/bin/env python3
"""The tests of the package pigale: `python3 python/test_pigale.py` from anywhere.

Its last lines say what was left out and how many tests passed and failed. Without networkx or Sage the tests that want
them are left out. The program is found as the package finds it.
"""
import importlib.util
import itertools
import json
import math
import os
import platform
import random
import re
import shutil
import struct
import subprocess
import sys
import tempfile
import unittest
import unittest.mock
import venv
import zlib
from xml.etree import ElementTree

HERE = os.path.dirname(os.path.abspath(__file__))
EXAMPLES = os.path.join(HERE, "..", "examples")
sys.path.insert(0, HERE)
import pigale  # noqa: E402

try:
    import networkx
except ImportError:
    networkx = None
try:
    from sage.all import Graph as SageGraph
except ImportError:
    SageGraph = None

SQUARE = {"a": (0, 0), "b": (4, 0), "c": (4, 4), "d": (0, 4)}
SIDES = [("a", "b"), ("b", "c"), ("c", "d"), ("d", "a")]


def content(name):
    with open(os.path.join(EXAMPLES, name), "rb") as file:
        return file.read()


def examples(ending):
    return sorted(name for name in os.listdir(EXAMPLES) if name.endswith(ending))


def command(*words, data=b""):
    """A run of pigale.py as a command: its status, its output and what it says besides."""
    done = subprocess.run([sys.executable, os.path.join(HERE, "pigale.py"), *words], input=data,
                          stdout=subprocess.PIPE, stderr=subprocess.PIPE, check=False)
    return done.returncode, done.stdout, done.stderr.decode()


class PlanarCode(unittest.TestCase):
    def test_examples_come_back(self):
        for name in examples(".plc"):
            data = content(name)
            maps = pigale.read_planar_code(data)
            self.assertEqual(pigale.write_planar_code(maps, data.startswith(pigale.HEADER)), data, name)
            with open(os.path.join(EXAMPLES, name), "rb") as file:
                self.assertEqual(pigale.read_planar_code(file), maps)

    def test_headers_and_orders(self):
        edge, narrow = [[2], [1]], bytes([2, 2, 0, 1, 0])
        great = b"\0" + bytes([0, 2, 0, 2, 0, 0, 0, 1, 0, 0])
        little = b"\0" + bytes([2, 0, 2, 0, 0, 0, 1, 0, 0, 0])
        rows = [(b"", narrow), (b"", great), (b">>planar_code<<", narrow), (b">>planar_code<<", great),
                (b">>planar_code be<<", great), (b">>planar_code le<<", narrow), (b">>planar_code le<<", little),
                (b">>planar_code le<<", narrow + little + narrow), (b">>planar_code <<", great)]
        for header, records in rows:
            for lists in pigale.read_planar_code(header + records):
                self.assertEqual(lists, edge, header + records)
        self.assertEqual(pigale.read_planar_code(little, "le"), [edge])
        self.assertEqual(pigale.read_planar_code(b">>planar_code be<<" + great, "le"), [edge])
        self.assertEqual(pigale.read_planar_code(b""), [])
        wide = [pigale.cycle(300)]
        self.assertEqual(pigale.read_planar_code(pigale.write_planar_code(wide)), wide)

    def test_what_is_no_planar_code(self):
        rows = [(b">>edge_code<<\x07", "edge_code"), (b">>graph6<<C~\n", "graph6"), (b"\x03\x02\x00", "record 1"),
                (b"\x01\x00\x02", "record 2"), (b"\0\0\0", "no vertices"), (b"\0\1", "record 1"), (b"\0", "record 1"),
                (b"\0\0\2\0\2\0\0\0\1\0", "record 1")]
        for data, word in rows:
            with self.assertRaisesRegex(ValueError, word):
                pigale.read_planar_code(data)
        for lists in ([], [[0]], [[256]], [[65536]] * 256, [[]] * 65536):
            with self.assertRaises(ValueError):
                pigale.write_planar_code([lists])


class Graph6(unittest.TestCase):
    def test_lines_come_back(self):
        lines = content("graphs.g6").decode().split("\n")[1:-1]
        for line in [*lines, "?", "@", "A_"]:
            self.assertEqual(pigale.write_graph6(pigale.read_graph6(line)), line)
        self.assertEqual(pigale.read_graph6("Cl"), (4, [(1, 2), (2, 3), (1, 4), (3, 4)]))
        for n in (62, 63, 255, 300):
            graph = (n, [(v, v + 1) for v in range(1, n)])
            self.assertEqual(pigale.read_graph6(pigale.write_graph6(graph)), graph)

    def test_what_is_no_line(self):
        for line in ("", "C", "C~~", "C\x1f", ":An", "~~?????"):
            with self.assertRaises(ValueError):
                pigale.read_graph6(line)
        for graph in ((2, [(1, 1)]), (2, [(1, 3)]), (2, [(0, 1)]), (258048, [])):
            with self.assertRaises(ValueError):
                pigale.write_graph6(graph)


class Texts(unittest.TestCase):
    def test_examples_come_back(self):
        for name in examples(".txt"):
            if name != "commands.txt":
                text = content(name).decode()
                self.assertEqual("".join(f"{block}\n" for block in pigale.read_blocks(text)), text, name)
                self.assertEqual(pigale.read_blocks(content(name)), pigale.read_blocks(text))

    def test_each_line_of_the_program(self):
        text = ("count 1 n 6 m 12 f 8 c 1 genus 0\nrefused 2 12 SeparatingTriangle 1 2 3\nrefused 3 13 NoInner\n"
                "verdict 4 yes\nverdict 1 yes sum 8 1\nverdict 5 Cross 1 2 3 4\nfigure 7 shift 1\n1 at -3 0:\n"
                "figure 8 bars 1\n1 y 0 x 0 0:\ncolumns\nstop BadLine 9\nstop TooLong\nend records 3 refused 2\n")
        blocks = pigale.read_blocks(text)
        self.assertEqual("".join(f"{block}\n" for block in blocks), text)
        self.assertEqual(blocks[5], pigale.Verdict(5, "Cross", (1, 2, 3, 4)))
        self.assertEqual([figure.number for figure in pigale.read_figures(text)], [7, 8])
        self.assertEqual(pigale.read_figures("end of something\nfigure 1 shift 1\n1 at 0 0:\ncount me\n"), [
            pigale.GridFigure(1, "shift", [(0, 0)], [[]])])

    def test_what_the_program_does_not_write(self):
        for text in ("count 1", "hello 1\n", "figure 1 shift 2\n1 at 0 0:\n", "figure 1 circle 1\n1 at 0 0:\n",
                     "figure 1 bars 1\n1 y 0 x 0 0:\n", "verdict x yes\n", "\n", "figure 1 witness K6 D~{\n"):
            with self.assertRaises(ValueError):
                pigale.read_blocks(text)


class AsTheProgram(unittest.TestCase):
    """What `read_figures` takes is what `verify` takes, and what `read_blocks` takes it writes again."""
    PIECES = ["0", "1", "-", "+", "01", " ", "  ", ":", "\n", "x", "\u0663", "65536", "1048577", "-1048577", "4096", "count ", "branch",
              "path", "foo", "-0", "at", "16777217", "~", "\r", "figure 1 shift 1\n1 at 0 0:\n", "1_0", "D~|", "K5"]

    def says(self, text, words):
        with self.assertRaisesRegex(ValueError, words):
            pigale.read_figures(text)
        with self.assertRaisesRegex(ValueError, words):
            pigale.read_blocks(text)

    def test_figures_that_are_nearly_right(self):
        house, witness = content("house.txt").decode(), content("witnesses.txt").decode()
        lines = house.split("\n")
        self.says("\n".join([lines[0], lines[2], lines[1], *lines[3:]]), "line 2 has another shape")
        for old, new in ((" at ", " at 1_0"), (" at ", " at +2"), (" at ", " at 0"), (" at ", " at \u0663"), (" at ", " on "), (":", " :"), (": ", ":  ")):
            self.says(house.replace(old, new, 1), "line 2 has another shape")
        self.says(house.replace(": ", ": 65536 ", 1), "line 2 has a number out of its range")
        self.says(house.replace(": ", ": 0 ", 1), "line 2 has a number out of its range")
        self.says(house.replace(lines[1].split(" ")[2], "1048577", 1), "line 2 has a number out of its range")
        self.says(house[:-1], "line 1 begins a figure of")
        self.says("figure 1 shift 4096\n1 at 0 0:\n", "line 1 has a number of vertices")
        self.says("figure 0 shift 1\n1 at 0 0:\n", "line 1 has a number of the figure|is not from 1")
        self.says(witness.replace("branch", "foo", 1), "line 2 has another shape")
        self.says(witness.replace("D~{", "D~|", 1), "line 1 has a graph")
        self.says(witness.replace("path 1 2\n", "path\n", 1), "line 3 has another shape")

    def test_lines_that_are_nearly_right(self):
        for line in ("count 1 n 6 m 12 f 8 c 1 genus -1", "count 1 n 6 m 12 f 8 c 1 faces 0", "refused 1 1 Loop 2", "refused 1 2 Loop", "refused 1 2 Loop 2 3",
                     "verdict 1 Crossed 1 2", "verdict 1 Cross 1 2 3", "verdict 1 yes 3", "stop BadLine", "stop Here 1", "end records 1", "end records 01 refused 0"):
            with self.assertRaisesRegex(ValueError, "line 1 is none"):
                pigale.read_blocks(f"{line}\n")

    def test_texts_of_another_kind(self):
        for text, kind in ((">>planar_code<<\3\2", "planar_code"), (">>graph6<<\nC~\n", "graph6"), ("D~{\n", "graph6"), ("<svg>\n", "picture"),
                           ('{"nodes": []}', "JSON"), (b"\x1f\x8b\x08", "gzip"), (pigale.write_planar_code([pigale.cycle(5)], False), "planar_code")):
            self.says(text, kind)

    def test_mutated_figures(self):
        source, taken = random.Random(5), 0
        texts = [content(name).decode() for name in ("house.txt", "platonic-bars.txt", "quadrangles-rect.txt", "witnesses.txt", "graphs-embed.txt")]
        for _ in range(300):
            text = source.choice(texts)
            for _ in range(source.randrange(1, 3)):
                at, lines = source.randrange(len(text)), text.split("\n")
                one, other = source.randrange(len(lines)), source.randrange(len(lines))
                lines[one], lines[other] = lines[other], lines[one]
                text = source.choice([text[:at] + source.choice(self.PIECES) + text[at + source.randrange(2):], text[:at] + text[at + 2:], "\n".join(lines)]) or "x"
            done = subprocess.run([pigale.program(), "verify"], input=text.encode(), stdout=subprocess.PIPE, check=False)
            last = done.stdout.decode().split("\n")[-2].split(" ")
            try:
                self.assertEqual(len(pigale.read_figures(text.encode())), int(last[2]), text)
                taken += 1
            except ValueError as fault:
                self.assertEqual(re.findall(r"line (\d+)", str(fault))[0], last[-1], (text, last))
                self.assertEqual(done.returncode, 3, text)
            try:
                self.assertEqual("".join(f"{block}\n" for block in pigale.read_blocks(text)), text)
            except ValueError:
                pass
        self.assertGreater(taken, 10)


class Runs(unittest.TestCase):
    def test_outputs_of_examples(self):
        for line in content("commands.txt").decode().split("\n"):
            output, job, source = line.split("\t") if line.count("\t") == 2 else ("", "", "")
            if output.endswith(".txt"):
                data = content(source)
                records = {"embed": lambda d: d.decode().split("\n")[1:-1], "verify": pigale.read_figures}
                result = pigale.run(job, records.get(job, pigale.read_planar_code)(data))
                self.assertEqual(result.text.encode(), content(output))
                self.assertEqual(pigale.run(job, data), result)

    def test_count_and_refusals(self):
        result = pigale.run("count", [pigale.cycle(3), [[2], []], pigale.cycle(300)])
        self.assertEqual(result.status, 1)
        self.assertEqual(result.answers, [pigale.Count(1, 3, 3, 2, 1, 0), pigale.Refused(2, 4, "OneSided", (1, 2)),
                                          pigale.Count(3, 300, 300, 2, 1, 0)])
        self.assertEqual(result.blocks[-1], pigale.End(3, 1))
        figures = pigale.draw([pigale.prism(3), pigale.cycle(4)], "convex")
        self.assertEqual([type(figure) for figure in figures], [pigale.GridFigure, pigale.Refused])
        with self.assertRaises(ValueError):
            pigale.draw([], "verify")

    def test_failures_say_their_status(self):
        rows = [("count", b"\x03\x02\x00", 3, "EndInRecord 0"), ("nothing", b"", 2, "BadWords"),
                ("verify", "figure 1 shift 2\n1 at 0 0:\n", 3, "EndInFigure 1"), ("embed", b"C\n", 3, "BadLine 1")]
        for job, data, status, word in rows:
            with self.assertRaisesRegex(pigale.PigaleError, word) as caught:
                pigale.run(job, data)
            self.assertEqual(caught.exception.run.status, status)
        data = content("platonic.plc")
        with self.assertRaises(pigale.PigaleError) as caught:
            pigale.run("shift", data[:-1])
        self.assertEqual(len(caught.exception.run.answers), 2)

    def test_embed_and_witnesses(self):
        figures = pigale.embed(content("graphs.g6").decode().split("\n")[1:-1])
        jobs = ["schnyder", "witness", "witness", "witness", "schnyder"]
        self.assertEqual([figure.job for figure in figures], jobs)
        k5 = pigale.embed([(5, list(itertools.combinations(range(1, 6), 2)))])[0]
        self.assertEqual(pigale.witness_graph(k5), (5, list(itertools.combinations(range(1, 6), 2))))
        self.assertEqual(pigale.run("verify", figures).status, 0)
        for figure in figures[1:4]:
            n, edges = pigale.witness_graph(figure)
            self.assertLessEqual(set(edges), set(pigale.read_graph6(figure.graph6)[1]))
            degrees = sorted(sum(v in edge for edge in edges) for v in range(1, n + 1))
            branches = [4] * 5 if figure.kind == "K5" else [3] * 6
            self.assertEqual([d for d in degrees if d > 2], branches)


class Makers(unittest.TestCase):
    def test_stacked_is_the_one_of_gen(self):
        for size, number in ((3, 7), (4, 0), (5, 0), (60, 1), (255, 4294967295), (300, 2)):
            count, verdict = pigale.run("gen", size=size, number=number).answers
            figure = pigale.draw([pigale.stacked(size, number)], "shift")[0]
            self.assertEqual((count.n, count.genus), (size, 0))
            self.assertEqual(verdict.numbers, tuple(map(sum, zip(*figure.places))), (size, number))
        with self.assertRaises(ValueError):
            pigale.stacked(2, 0)

    def test_counts(self):
        source = random.Random(1)
        rows = [(pigale.path(9), 9, 8, 0), (pigale.cycle(9), 9, 9, 0), (pigale.wheel(9), 9, 16, 0),
                (pigale.prism(9), 18, 27, 0), (pigale.grid(4, 6), 24, 38, 0), (pigale.quadrangle(3, 4), 16, 41, 0),
                (pigale.tree(40, source), 40, 39, 0), (pigale.triangulation(40, source), 40, 114, 0),
                (pigale.renumbered(pigale.prism(9), source), 18, 27, 0), (pigale.complete(3), 3, 3, 0),
                (pigale.dual(pigale.prism(9)), 11, 27, 0), (pigale.dual(pigale.dual(pigale.wheel(9))), 9, 16, 0)]
        answers = pigale.run("count", [lists for lists, *_ in rows]).answers
        self.assertEqual([(a.n, a.m, a.genus) for a in answers], [tuple(row) for _, *row in rows])
        self.assertGreater(pigale.run("count", [pigale.complete(7)]).answers[0].genus, 0)

    def test_jobs_that_they_are_for(self):
        for job, maps in (("rect", [pigale.quadrangle(1, 1), pigale.quadrangle(3, 4), pigale.quadrangle(4, 1)]),
                          ("convex", [pigale.wheel(4), pigale.wheel(9), pigale.prism(3), pigale.stacked(9, 1)]),
                          ("bars", [pigale.grid(2, 2), pigale.grid(4, 6), pigale.cycle(3)]),
                          ("shift", [pigale.path(3), pigale.tree(9, random.Random(2))])):
            self.assertEqual(pigale.run(job, maps).status, 0, job)

    def test_outside(self):
        lists = pigale.prism(5)
        for v, u in ((1, 2), (1, 6), (7, 6), (3, 2)):
            turned = pigale.outside(lists, v, u)
            size = next(len(face) for face in pigale.faces_of(lists) if (v, u) in zip(face, face[1:] + face[:1]))
            self.assertEqual(len(pigale.faces_of(turned)[0]), size)
            self.assertEqual(pigale.run("convex", [turned]).status, 0)

    def test_triangulations_without_an_edge(self):
        maps = pigale.read_planar_code(content("platonic.plc"))[:2]
        opened = [pigale.without_edge(lists, 1, lists[0][0]) for lists in maps]
        self.assertEqual(pigale.run("rect", opened).status, 0)
        self.assertEqual(pigale.run("rect", [pigale.without_edge(pigale.stacked(9, 1), 1, 2)]).status, 1)

    def test_diagonals_of_ones_own(self):
        lists = pigale.quadrangle(4, 5, lambda i, j: (i + j) % 2 == 0)
        self.assertEqual(pigale.run("rect", [lists]).status, 0)
        self.assertIn((6, 10), pigale.edges_of(lists))

    def test_faces(self):
        self.assertEqual(pigale.faces_of(pigale.cycle(3)), [[1, 2, 3], [1, 3, 2]])
        self.assertEqual(len(pigale.faces_of(pigale.grid(4, 6))), 16)
        self.assertEqual(pigale.faces_of([[]]), [])


def crosses_or_touches(p, q, r, s):
    """Whether segments pq and rs have a point in common, by whole numbers."""
    def turn(a, b, c):
        area = (b[0] - a[0]) * (c[1] - a[1]) - (c[0] - a[0]) * (b[1] - a[1])
        return (area > 0) - (area < 0)

    def is_on(a, b, c):
        return (turn(a, b, c) == 0 and min(a[0], b[0]) <= c[0] <= max(a[0], b[0])
                and min(a[1], b[1]) <= c[1] <= max(a[1], b[1]))

    if turn(p, q, r) * turn(p, q, s) < 0 and turn(r, s, p) * turn(r, s, q) < 0:
        return True
    return is_on(p, q, r) or is_on(p, q, s) or is_on(r, s, p) or is_on(r, s, q)


def is_plane(places, edges):
    """The check of all pairs that the program's verdicts are compared with."""
    at = [places[v] for v in places]
    if len(set(at)) < len(at):
        return False
    for a, b in edges:
        for v in places:
            if v not in (a, b) and crosses_or_touches(places[a], places[b], places[v], places[v]):
                return False
    return not any(len({*one, *other}) == 4 and crosses_or_touches(*(places[v] for v in (*one, *other)))
                   for one, other in itertools.combinations(edges, 2))


BY_PROGRAM = unittest.mock.patch.dict(os.environ, PIGALE_LIBRARY="")


class Drawings(unittest.TestCase):
    def test_verdicts_have_your_names(self):
        rows = [(SQUARE, SIDES, "yes"), (SQUARE, [*SIDES, ("a", "c")], "yes"), ({}, [], "yes"), ({"a": (5, 5)}, [], "yes"),
                (SQUARE, [*SIDES, ("a", "c"), ("b", "d")], "Cross a c b d"),
                ({**SQUARE, "e": (2, 0)}, SIDES, "OnEdge e a b"), ({**SQUARE, "e": (4, 4)}, SIDES, "SamePlace c e"),
                ({**SQUARE, "e": (2, 0)}, [*SIDES, ("a", "e")], "OnEdge e a b"),
                (SQUARE, [*SIDES, ("a", "a")], "Loop a"), (SQUARE, [*SIDES, ("b", "a")], "Repeated a b")]
        for places, edges, verdict in rows:
            answer = pigale.check(places, edges)
            self.assertEqual(str(answer), verdict)
            self.assertEqual(bool(answer), verdict == "yes")
        self.assertEqual(pigale.check([(0, 0), (2, 2), (0, 2), (2, 0)], [(0, 1), (3, 2)]), pigale.Checked("Cross", (0, 1, 2, 3)))

    def test_moved_mirrored_and_large(self):
        crossed = [*SIDES, ("a", "c"), ("b", "d")]
        moves = [lambda x, y: (x - 9, y - 5), lambda x, y: (-x, y), lambda x, y: (x, -y), lambda x, y: (y, x),
                 lambda x, y: (10 ** 12 * x, 7 * y), lambda x, y: (x + 10 ** 15, y), lambda x, y: (1.0 * x, 2.0 * y)]
        for move in moves:
            places = {name: move(*place) for name, place in SQUARE.items()}
            self.assertTrue(pigale.check(places, SIDES))
            self.assertEqual(str(pigale.check(places, crossed)), "Cross a c b d")

    @BY_PROGRAM
    def test_many_drawings_take_several_runs(self):
        crossed = [*SIDES, ("a", "c"), ("b", "d")]
        drawings = [(SQUARE, SIDES if k % 3 else crossed) for k in range(10)]
        with unittest.mock.patch.object(pigale.checks, "MOST_BYTES", 400):
            with unittest.mock.patch.object(pigale.checks, "run", wraps=pigale.run) as runs:
                answers = pigale.check_all(drawings)
        self.assertEqual([bool(answer) for answer in answers], [k % 3 > 0 for k in range(10)])
        self.assertGreater(runs.call_count, 1)

    @BY_PROGRAM
    def test_limits(self):
        for far in ((8186, 1), (8186, 4092), (1, 8186), (4092, 8186)):
            places = {"a": (0, 0), "b": far, "c": (1, 0), "d": (0, 1)}
            self.assertTrue(pigale.check(places, [("a", "b")]), far)
        self.assertFalse(pigale.check({**places, "b": (1000, 900)}, [("a", "b"), ("c", "d")]))
        for far in ((8187, 1), (8186, 4093), (1, 8187), (4093, 8186)):
            with self.assertRaisesRegex(ValueError, "8186 by 4092"):
                pigale.check({"a": (0, 0), "b": far, "c": (1, 0), "d": (0, 1)}, [])
        line = [(v, 0) for v in range(4094)]
        self.assertTrue(pigale.check(line, [(v, v + 1) for v in range(4093)]))
        with self.assertRaises(ValueError):
            pigale.check([*line, (4094, 0)], [])

    def test_what_is_no_drawing(self):
        nan, infinite = float("nan"), float("inf")
        for places, edges in (({"a": (0.5, 0)}, []), ({"a": (nan, 0)}, []), ({"a": (0, infinite)}, []),
                              (SQUARE, [("a", "z")])):
            with self.assertRaises(ValueError):
                pigale.check(places, edges)
        with self.assertRaises(ValueError):
            pigale.scaled({"a": (nan, 0)})

    def test_rotations(self):
        spokes = [*SIDES, ("a", "c")]
        right = {"a": ["d", "c", "b"], "b": ["a", "c"], "c": ["d", "b", "a"], "d": ["c", "a"]}
        self.assertTrue(pigale.check(SQUARE, spokes, right))
        self.assertEqual(str(pigale.check(SQUARE, spokes, {**right, "a": ["b", "c", "d"]})), "Turned a")
        self.assertEqual(str(pigale.check(SQUARE, spokes, {**right, "a": ["d", "b"]})), "OneSided c a")
        with self.assertRaises(ValueError):
            pigale.check(SQUARE, SIDES, right)

    def test_floats_are_scaled_first(self):
        places = {name: (0.1 * x - 3, 0.37 * y) for name, (x, y) in SQUARE.items()}
        self.assertTrue(pigale.check(pigale.scaled(places), SIDES))
        self.assertEqual(pigale.scaled(places)["c"], (pigale.WIDTH, pigale.HEIGHT))
        self.assertEqual(pigale.scaled([(0.5, 0.5)]), {0: (0, 0)})
        self.assertEqual(pigale.scaled({}), {})
        self.assertEqual(str(pigale.check(pigale.scaled({**places, "e": (-3 + 1e-9, 0)}), SIDES)), "SamePlace a e")

    def test_random_drawings_agree_with_all_pairs(self):
        source, drawings = random.Random(3), []
        for _ in range(400):
            n = source.randrange(1, 9)
            places = {v: (source.randrange(-4, 5), source.randrange(-4, 5)) for v in range(n)}
            pairs = list(itertools.combinations(range(n), 2))
            drawings.append((places, source.sample(pairs, min(len(pairs), source.randrange(7)))))
        answers = pigale.check_all(drawings)
        self.assertEqual([bool(answer) for answer in answers], [is_plane(*drawing) for drawing in drawings])
        self.assertGreater(sum(map(bool, answers)), 50)
        self.assertGreater(sum(not answer for answer in answers), 50)


@unittest.skipUnless(networkx, "networkx is not there")
class Networkx(unittest.TestCase):
    @classmethod
    def setUpClass(cls):
        cls.drawn = {6: [], 7: []}
        for graph in networkx.graph_atlas_g():
            if len(graph) in cls.drawn and networkx.is_connected(graph):
                planar, embedding = networkx.check_planarity(graph)
                if planar:
                    cls.drawn[len(graph)].append((networkx.combinatorial_embedding_to_pos(embedding), list(graph.edges), embedding))

    def test_their_drawings_are_right(self):
        for n, count in ((6, 99), (7, 646)):
            self.assertEqual(len(self.drawn[n]), count)
            rotations = [(places, edges, {v: list(embedding.neighbors_cw_order(v)) for v in embedding})
                         for places, edges, embedding in self.drawn[n]]
            self.assertEqual(set(map(str, pigale.check_all(rotations))), {"yes"})
        self.assertTrue(pigale.check(*self.drawn[7][-1][:2]))

    def test_one_vertex_moved(self):
        source, moved = random.Random(4), []
        for places, edges, _ in self.drawn[6] + self.drawn[7]:
            v, (a, b) = source.choice([(v, edge) for v in places for edge in edges if v not in edge])
            places = {w: (4 * x, 4 * y) for w, (x, y) in places.items()}
            x, y = ((places[a][k] + places[b][k]) // 2 for k in (0, 1))
            # onto the edge, and a little across it
            moved += [({**places, v: (x, y)}, edges), ({**places, v: (x + source.choice((-1, 1)), y)}, edges)]
        answers = pigale.check_all(moved)
        self.assertEqual([bool(answer) for answer in answers], [is_plane(*drawing) for drawing in moved])
        self.assertGreater(sum(not answer for answer in answers), 400)
        self.assertGreater(sum(map(bool, answers)), 20)
        self.assertGreater(len({answer.name for answer in answers}), 2)

    def test_embeddings_both_ways(self):
        for _, _, embedding in self.drawn[6]:
            lists, names = pigale.from_networkx(embedding)
            back = pigale.to_networkx(lists, names)
            back.check_structure()
            self.assertEqual({v: set(back[v]) for v in back}, {v: set(embedding[v]) for v in embedding})
            again, _ = pigale.from_networkx(back)
            for one, other in zip(lists, again):
                turn = other.index(one[0])
                self.assertEqual(other[turn:] + other[:turn], one)
        lists, _ = pigale.from_networkx(pigale.to_networkx(pigale.wheel(7)))
        self.assertEqual(pigale.run("count", [lists]).answers, [pigale.Count(1, 7, 12, 7, 1, 0)])
        self.assertEqual(pigale.from_networkx(pigale.to_networkx([[], []])), ([[], []], [1, 2]))

    def test_graphs_are_planar_just_where_networkx_says_so(self):
        graphs = [graph for graph in networkx.graph_atlas_g() if len(graph) in (5, 6)]
        figures = pigale.embed([pigale.graph_of_networkx(graph)[0] for graph in graphs])
        for graph, figure in zip(graphs, figures):
            self.assertEqual(networkx.check_planarity(graph)[0], figure.job == "schnyder")


@unittest.skipUnless(SageGraph, "Sage is not there")
class Sage(unittest.TestCase):
    def test_graphs_have_their_embedding(self):
        for lists in [*pigale.read_planar_code(content("platonic.plc")), pigale.cycle(3), pigale.path(2)]:
            figure = pigale.draw([lists], "shift")[0] if len(lists) > 2 else None
            graph = pigale.to_sage(lists, figure and figure.places)
            self.assertEqual(graph.genus(on_embedding=graph.get_embedding()), 0)
            self.assertEqual(graph.get_embedding(), dict(enumerate(lists, 1)))


def colours(image):
    """The colours of an image, a PNG of eight bits a part without a palette, each as its bytes."""
    with open(image, "rb") as file:
        data = file.read()
    width, height, _, kind = struct.unpack(">IIBB", data[16:26])
    at, parts = 8, []
    while at < len(data):
        (size,) = struct.unpack(">I", data[at:at + 4])
        parts += [data[at + 8:at + 8 + size]] * (data[at + 4:at + 8] == b"IDAT")
        at += size + 12
    rows, depth, found = zlib.decompress(b"".join(parts)), {2: 3, 6: 4}[kind], set()
    above = bytearray(width * depth)
    for y in range(height):
        start = y * (width * depth + 1)
        row = bytearray(rows[start + 1:start + 1 + width * depth])
        for k, value in enumerate(row):
            left, up, corner = (row[k - depth], above[k], above[k - depth]) if k >= depth else (0, above[k], 0)
            near = sorted((left, up, corner), key=lambda other: abs(left + up - corner - other))[0]
            row[k] = (value + (0, left, up, (left + up) // 2, near)[rows[start]]) % 256
        found.update(bytes(row[k:k + depth]) for k in range(0, len(row), depth))
        above = row
    return found


class Slips(unittest.TestCase):
    """What is often given in place of what is wanted, and what is said then."""

    def says(self, words, call, *values):
        with self.assertRaisesRegex(ValueError, words):
            call(*values)

    def test_places_that_are_no_pairs(self):
        for place in ((1,), (1, 2, 3), 5, None):
            self.says("vertex a has the place", pigale.check, {"a": place}, [])
            self.says("vertex a has the place", pigale.scaled, {"a": place})

    def test_edges_with_more_than_their_ends(self):
        for edge in (("a", "b", {}), ("a", "b", 0), ("a", "b", 0, {})):
            self.says("without data, keys and labels", pigale.check, SQUARE, [edge])
        self.says("without data, keys and labels", pigale.write_graph6, (3, [(1, 2, {})]))
        self.assertTrue(pigale.check([(0, 0), (1, 0)], [range(2)]))
        for edge in (("a",), "a", 7):
            self.says("an edge is a pair", pigale.check, SQUARE, [edge])

    def test_one_map_or_graph_or_figure_where_a_list_is(self):
        lists = pigale.prism(3)
        for call in (pigale.draw, pigale.write_planar_code, lambda maps: pigale.run("count", maps)):
            self.says("give a list of maps", call, lists)
            self.says("map 2 is no list", call, [lists, 7])
        self.says("give a list of graphs", pigale.embed, (3, [(1, 2)]))
        self.says("graph 1: a graph is", pigale.embed, [lists])
        figure = pigale.draw([lists])[0]
        self.says("give a list of figures", pigale.run, "verify", figure)
        self.says("entry 2 is no figure", pigale.run, "verify", [figure, lists])
        self.says("entry 1 is no figure to verify, but Refused", pigale.run, "verify", pigale.draw([[[2], []]]))

    def test_lines_with_a_header_or_a_line_end(self):
        for line, words in ((">>graph6<<C~", "header"), ("C~\n", "line end"), ("C~\r", "line end")):
            self.says(words, pigale.read_graph6, line)
            self.says(f"graph 1: .*{words}", pigale.embed, [line])

    def test_too_many_vertices(self):
        self.says("map 2 has 4096 vertices", pigale.draw, [pigale.path(3), pigale.path(4096)])
        self.says("graph 1 has 256 vertices", pigale.embed, [(256, [])])
        self.says("graph 2: the line has a graph of 256 vertices", pigale.embed, ["C~", pigale.write_graph6((256, []))])
        self.assertEqual(pigale.embed([pigale.write_graph6((255, []))])[0].number, 1)
        self.assertEqual(pigale.draw([pigale.path(4095)], "shift")[0].number, 1)

    def test_graphs_of_networkx(self):
        class Graph:
            nodes = edges = ()

            def __iter__(self):
                return iter((1, 2))

        self.says("has no rotations", pigale.from_networkx, Graph())
        self.says(r"of networkx: give a list of graphs, as \[graph\] for one", pigale.embed, Graph())
        self.says(r"a Graph of networkx: give a list of maps, as \[embedding\] for one", pigale.draw, Graph())
        self.says("has rotations, and embed takes graphs without", pigale.draw, [Graph()])
        if networkx:
            self.says("check_planarity", pigale.from_networkx, networkx.cycle_graph(4))
            self.says("a Graph of networkx", pigale.draw, [networkx.cycle_graph(4)])
            twice = networkx.MultiGraph([(0, 1), (0, 1), (1, 2)])
            self.assertEqual(pigale.graph_of_networkx(twice)[0], (3, [(1, 2), (2, 3)]))
            self.says("without data, keys and labels", pigale.check, [(0, 0), (1, 0), (2, 0)], twice.edges)


class Package(unittest.TestCase):
    TOP = os.path.join(HERE, "..")

    def text(self, *path):
        with open(os.path.join(self.TOP, *path), encoding="utf-8") as file:
            return file.read()

    def test_one_version(self):
        for line, path in ((f"version: {pigale.__version__}", ["CITATION.cff"]), (f'version = "{pigale.__version__}"', ["pyproject.toml"]),
                           (f"version {pigale.__version__}", ["release", "MANIFEST"]), (f"Version: {pigale.__version__}", ["library", "pigale.pc"]),
                           (f'#define PIGALE_VERSION "{pigale.__version__}"', ["include", "pigale.h"]),
                           (f'  "version": "{pigale.__version__}",', ["npm", "package.json"]),
                           (f'version = "{pigale.__version__}"', ["examples", "rust", "pigale-sys", "Cargo.toml"])):
            self.assertIn(line, self.text(*path).split("\n"), path)

    def test_there_is_no_program_for_the_system(self):
        with unittest.mock.patch.dict(os.environ, PIGALE="", PATH=""), unittest.mock.patch("platform.machine", return_value="sparc"), \
                unittest.mock.patch("os.access", return_value=False):
            with self.assertRaisesRegex(FileNotFoundError, "no program for this system, sparc-"):
                pigale.program()
            with tempfile.TemporaryDirectory() as folder:
                open(os.path.join(folder, "pigale-x86_64-linux"), "w", encoding="ascii").close()
                with unittest.mock.patch("os.path.realpath", return_value=os.path.join(folder, "runs.py")):
                    with self.assertRaisesRegex(FileNotFoundError, "this package has a program for x86_64-linux, and none for this system, sparc-"):
                        pigale.program()

    def test_all_names(self):
        self.assertEqual(sorted(pigale.__all__), pigale.__all__)
        for name in pigale.__all__:
            self.assertTrue(hasattr(pigale, name), name)

    @unittest.skipUnless(shutil.which("mypy"), "mypy is not there")
    def test_types(self):
        done = subprocess.run(["mypy", "--strict", "--no-incremental", os.path.join(HERE, "pigale")], cwd=self.TOP,
                              stdout=subprocess.PIPE, check=False)
        self.assertEqual(done.returncode, 0, done.stdout.decode())

    def test_wheels(self):
        with tempfile.TemporaryDirectory() as folder:
            maker = os.path.join(self.TOP, "tools", "make_wheel.py")
            done = subprocess.run([sys.executable, maker, folder], stdout=subprocess.PIPE, check=True)
            wheels = done.stdout.decode().split()
            own = [wheel for wheel in wheels if wheel.endswith(f"_{platform.machine()}.whl")]
            self.assertTrue(wheels)
            if not own or platform.system() != "Linux":
                self.skipTest("there is no released program for this machine")
            place = os.path.join(folder, "venv")
            try:
                venv.create(place, with_pip=True)
            except (subprocess.CalledProcessError, OSError):
                self.skipTest("venv makes no environment with pip here")
            python = os.path.join(place, "bin", "python")
            subprocess.run([python, "-m", "pip", "install", "--no-index", "-q", "--disable-pip-version-check", own[0]], check=True)
            rows = ["import pigale", "figure = pigale.draw([pigale.prism(3)], 'convex')[0]", "print(pigale.program())",
                    "print(pigale.picture(figure, style='faces').count('<polygon'))", "print(pigale.__version__)"]
            names = {name: value for name, value in os.environ.items() if name not in ("PIGALE", "PYTHONPATH")}
            done = subprocess.run([python, "-c", "\n".join(rows)], cwd=folder, env=names, stdout=subprocess.PIPE, check=True)
            program, faces, version = done.stdout.decode().split()
            self.assertTrue(program.startswith(os.path.realpath(place)) or program.startswith(place), program)
            self.assertEqual((faces, version), ("4", pigale.__version__))
            done = subprocess.run([python, "-m", "pigale", "stacked", "3", "1"], cwd=folder, env=names, stdout=subprocess.PIPE, check=True)
            self.assertEqual(pigale.read_planar_code(done.stdout), [pigale.stacked(3, 1)])


class Pictures(unittest.TestCase):
    def figures(self):
        names = [name for name in examples(".txt") if name != "commands.txt"]
        return [figure for name in names for figure in pigale.read_figures(content(name))]

    def test_labels_are_a_flag(self):
        figure = pigale.draw([pigale.cycle(3)])[0]
        for labels in ("abc", 1, None):
            with self.assertRaisesRegex(ValueError, "labels is True, False"):
                pigale.picture(figure, labels=labels)
            with self.assertRaisesRegex(ValueError, "labels is True, False"):
                pigale.page(pigale.run("schnyder", [pigale.cycle(3)]), labels=labels)

    def test_pictures_are_xml(self):
        space = "{http://www.w3.org/2000/svg}"
        for figure in [*self.figures(), pigale.draw([pigale.stacked(255, 1)])[0]]:
            root = ElementTree.fromstring(pigale.picture(figure))
            titles = sum(1 for _ in root.iter(f"{space}title"))
            n = pigale.read_graph6(figure.graph6)[0] if figure.job == "witness" else len(figure.lists)
            self.assertEqual(titles, n)
            if figure.job in pigale.GRID_JOBS:
                self.assertEqual(sum(1 for _ in root.iter(f"{space}line")), len(pigale.edges_of(figure.lists)))
            self.assertFalse(list(ElementTree.fromstring(pigale.picture(figure, labels=False)).iter(f"{space}text")))

    def test_notebooks_show_figures(self):
        for figure in self.figures():
            self.assertEqual(figure._repr_svg_(), pigale.picture(figure))
        self.assertIsNone(pigale.GridFigure(1, "shift", [(0, 0)], [[2]])._repr_svg_())

    def test_colours_are_plain(self):
        for figure in self.figures():
            text = pigale.picture(figure, style="equilateral,faces")
            for word in ("var(", "<style", "dominant-baseline"):
                self.assertNotIn(word, text)

    def test_the_gallery_is_drawn_anew_and_has_its_colours(self):
        docs = os.path.join(HERE, "..", "docs")
        spec = importlib.util.spec_from_file_location("draw", os.path.join(docs, "gallery", "draw.py"))
        draw = importlib.util.module_from_spec(spec)
        spec.loader.exec_module(draw)
        found = dict(draw.files())
        with tempfile.TemporaryDirectory() as folder:
            for path, data in found.items():
                with open(os.path.join(docs, path), "rb") as file:
                    self.assertEqual(file.read(), data, f"{path}: docs/gallery/draw.py makes it anew")
                if path.endswith(".svg"):
                    ElementTree.fromstring(data)
                    self.assertNotIn(b"var(", data)
                if path.endswith(".svg") and shutil.which("rsvg-convert"):
                    image = os.path.join(folder, "image.png")
                    subprocess.run(["rsvg-convert", "-w", "150", "-o", image, os.path.join(docs, path)], check=True)
                    bright = [colour for colour in colours(image) if max(colour[:3]) - min(colour[:3]) > 60]
                    self.assertGreater(len(bright), 2, path)
        unread = set() if networkx else {"gallery/florence-round.svg"}
        self.assertEqual({path for path in found if path.endswith(".svg")} | unread,
                         {f"gallery/{name}" for name in os.listdir(os.path.join(docs, "gallery")) if name.endswith(".svg")})

    def test_the_triangle_is_equilateral(self):
        for job in ("shift", "schnyder", "convex"):
            for lists in (pigale.cycle(3), pigale.stacked(4, 1), pigale.prism(3), pigale.dual(pigale.stacked(9, 2)), pigale.stacked(30, 3)):
                (figure,) = pigale.draw([lists], job)
                if isinstance(figure, pigale.Refused):
                    continue
                dots = [(float(dot.get("cx")), float(dot.get("cy"))) for dot in self.parts(figure, "circle", style="equilateral")]
                corners = [dots[v] for v in (min(range(len(dots)), key=lambda v: dots[v][0]), max(range(len(dots)), key=lambda v: dots[v][0]),
                                             min(range(len(dots)), key=lambda v: dots[v][1]))]
                if job == "convex" or len(pigale.edges_of(lists)) == 3 * len(lists) - 6:
                    sides = [math.dist(one, other) for one, other in itertools.combinations(corners, 2)]
                    self.assertLess(max(sides) - min(sides), 1, (job, lists))

    def parts(self, figure, name, **look):
        return list(ElementTree.fromstring(pigale.picture(figure, **look)).iter("{http://www.w3.org/2000/svg}" + name))

    def test_inner_faces_are_filled_by_their_lengths(self):
        for job, lists in (("convex", pigale.prism(5)), ("shift", pigale.grid(3, 4)), ("schnyder", [*pigale.cycle(4), [6], [5]]),
                           ("schnyder", pigale.tree(9, random.Random(1)))):
            (figure,) = pigale.draw([lists], job)
            colours = sorted(face.get("fill") for face in self.parts(figure, "polygon", style=["faces"]))
            inner = [face for face in pigale.faces_of(lists)[1:] if len(lists) < 6 or lists[5] != [5]] or [[1, 2, 3, 4]] * (lists[-1] == [5])
            self.assertEqual(colours, sorted(pigale.pictures.STYLE["light"][f"face-{len(face)}"] for face in inner))
            self.assertFalse(self.parts(figure, "polygon"))

    def test_sizes_grow_with_the_picture(self):
        (figure,) = pigale.draw([pigale.stacked(40, 1)])
        (small,), (large,) = ({dot.get("r") for dot in self.parts(figure, "circle", side=side)} for side in (300, 3000))
        self.assertAlmostEqual(10 * float(small), float(large), delta=0.11)
        self.assertEqual(ElementTree.fromstring(pigale.picture(figure, side=3000)).get("width"), "3000")

    def test_what_has_no_picture(self):
        refused, figure = pigale.draw([[[2], []], pigale.prism(3)], "convex")
        with self.assertRaisesRegex(ValueError, "refused 1 4 OneSided"):
            pigale.picture(refused)
        with self.assertRaisesRegex(ValueError, "equilateral and faces"):
            pigale.picture(figure, style="poster")
        for side in (0, -1, float("nan"), 10 ** 9):
            with self.assertRaisesRegex(ValueError, "side"):
                pigale.picture(figure, side=side)

    def test_neighbours_have_other_tints(self):
        for lists in (pigale.quadrangle(6, 9), pigale.stacked(200, 3)):
            tints = pigale.pictures.tints_of(lists)
            self.assertTrue(all(tints[u - 1] != tints[v - 1] for u, v in pigale.edges_of(lists)))

    def test_pages(self):
        page = pigale.page(pigale.run("convex", [pigale.prism(3), pigale.cycle(4)]))
        self.assertEqual(page.count("<svg"), 1)
        self.assertIn("refused 2 9 SeparatingPair 1 3", page)
        self.assertIn("2 records, 1 refused", page)
        self.assertNotIn("<script", page)
        self.assertIn("count 1 n 6", pigale.page(pigale.run("count", [pigale.prism(3)])))
        self.assertIn("var(--face-4)", pigale.page(pigale.run("convex", [pigale.prism(3)]), style="faces"))
        with self.assertRaisesRegex(ValueError, "no style"):
            pigale.page(pigale.run("convex", [pigale.cycle(4)]), style="x")

    def test_pages_of_many_records(self):
        maps = [pigale.prism(3), pigale.cycle(4)] * 10
        result = pigale.run("convex", maps)
        texts = list(pigale.pages(result, cards=4))
        self.assertEqual([text.count("<svg") for text in texts], [4, 4, 2])
        self.assertEqual([text.count("<details>") for text in texts], [1, 1, 1])
        self.assertIn("<summary>4 refused: 4 SeparatingPair</summary>", texts[0])
        self.assertIn('<a href="page-3.html">3</a>', texts[1])
        self.assertEqual(list(pigale.pages(result)), [pigale.page(result)])
        self.assertEqual(len(list(pigale.pages(pigale.run("convex", [pigale.cycle(4)] * 7000)))), 3)
        self.assertEqual(len(list(pigale.pages(pigale.run("convex", [])))), 1)
        figures = [pigale.GridFigure(k, "shift", [(0, 0), (k % 3, 0)], [[], []]) for k in range(1, 8)]
        texts = list(pigale.pages(pigale.run("verify", figures), figures, cards=3))
        self.assertIn("7: shift, 2 vertices, 0 edges: OutOfGrid", texts[-1])
        looped = [pigale.GridFigure(1, "shift", [(0, 0), (1, 1), (2, 0)], [[1], [], []])]
        self.assertIn("3 vertices, 0 edges: Loop 1", pigale.page(pigale.run("verify", looped), looped))

    def test_pages_of_wrong_figures(self):
        text = content("witnesses.txt").decode().replace("path 1 2\n", "path 6 2\n") + "figure 1 shift 2\n1 at 0 0: 3\n2 at 1 0:\n"
        figures = pigale.read_figures(text)
        page = pigale.page(pigale.run("verify", figures), figures)
        self.assertEqual(page.count("<svg"), 1)
        self.assertIn("OutOfRange 1 3", page)
        for figure in (figures[0], figures[2]):
            with self.assertRaises(ValueError):
                pigale.picture(figure)


class Commands(unittest.TestCase):
    def test_recode(self):
        data = content("wide.plc")
        little = b">>planar_code le<<\0" + b"".join(data[k + 1:k + 2] + data[k:k + 1] for k in range(1, len(data), 2))
        self.assertEqual(command("recode", data=little), (0, pigale.HEADER + data, ""))
        status, _, said = command("recode", data=b">>double_code<<")
        self.assertEqual((status, "double_code" in said), (3, True))

    def test_check(self):
        crossed = [*SIDES, ("a", "c"), ("b", "d")]

        def drawing(move, edges):
            return json.dumps({"nodes": [{"id": v, "x": move * x, "y": y} for v, (x, y) in SQUARE.items()],
                               "edges": [{"source": u, "target": v} for u, v in edges]})

        data = "".join(f'<node id="{v}"><data key="k0">{x}</data><data key="k1">{y}</data></node>' for v, (x, y) in SQUARE.items())
        keys = "".join(f'<key id="k{k}" for="node" attr.name="{name}" attr.type="double"/>' for k, name in enumerate("xy"))
        graphml = (f'<graphml xmlns="http://graphml.graphdrawing.org/xmlns">{keys}<graph edgedefault="undirected">{data}'
                   '<edge source="a" target="c"/><edge source="b" target="d"/></graph></graphml>')
        rows = [("a.json", drawing(1, SIDES), [], 0, "yes"), ("a.json", drawing(1, crossed), [], 1, "Cross a c b d"),
                ("a.json", drawing(0.3, SIDES), [], 3, ""), ("a.json", drawing(0.3, SIDES), ["--scale"], 0, "yes"),
                ("a.json", drawing(1, SIDES).replace("edges", "links"), [], 0, "yes"), ("a.json", "[]", [], 3, ""),
                ("a.json", "{", [], 3, ""), ("a.json", '{"nodes": [], "edges": []}', [], 3, ""),
                ("a.json", drawing(1, SIDES).replace('"x": 0', '"x": "0"'), ["--scale"], 3, ""),
                ("a.graphml", "<graphml/>", [], 3, ""), ("a.graphml", graphml, [], 1, "Cross a c b d"), ("a.graphml", "<", [], 3, ""),
                ("a.graphml", graphml.replace('key="k1"', 'key="k2"'), [], 3, "")]
        with tempfile.TemporaryDirectory() as folder:
            for name, text, words, status, verdict in rows:
                path = os.path.join(folder, name)
                with open(path, "w", encoding="utf-8") as file:
                    file.write(text)
                found, out, _ = command("check", *words, path)
                self.assertEqual((found, out.decode().strip()), (status, verdict), text[:60])
            self.assertEqual(command("check", os.path.join(folder, "none.json"))[0], 3)

    def test_stacked(self):
        status, out, _ = command("stacked", "9", "5")
        self.assertEqual((status, pigale.read_planar_code(out)), (0, [pigale.stacked(9, 5)]))
        self.assertEqual(command("stacked", "9")[0], 2)

    def test_picture(self):
        status, out, _ = command("picture", data=content("platonic-shift.txt"))
        figure = pigale.read_figures(content("platonic-shift.txt"))[0]
        self.assertEqual((status, out.decode()), (0, pigale.picture(figure)))
        self.assertEqual(command("picture", data=content("house-verify.txt"))[0], 3)
        figure = pigale.read_figures(content("platonic-shift.txt"))[2]
        words = ["--figure", "3", "--style", "equilateral,faces", "--side", "500", "--no-numbers"]
        self.assertEqual(command("picture", *words, data=content("platonic-shift.txt"))[1].decode(),
                         pigale.picture(figure, 500, False, "equilateral,faces"))
        for words in (["--figure", "4"], ["--style", "round"], ["--side", "0"]):
            self.assertEqual(command("picture", *words, data=content("platonic-shift.txt"))[:2], (3, b""))

    def test_page(self):
        status, out, _ = command("page", "shift", data=content("platonic.plc"))
        self.assertEqual((status, out.count(b"<svg")), (0, 3))
        status, out, _ = command("page", "verify", data=content("crossing.txt"))
        self.assertIn(b"Cross 1 3 2 4", out)
        status, out, said = command("page", "shift", data=content("platonic.plc")[:-1])
        self.assertEqual((status, out.count(b"<svg"), "EndInRecord 119" in said), (3, 2, True))
        self.assertEqual(command("page", "nothing")[0], 3)
        with tempfile.TemporaryDirectory() as folder:
            data = pigale.write_planar_code([pigale.prism(3)] * 301)
            status, out, said = command("page", "convex", "--to", folder, data=data)
            self.assertEqual((status, out, sorted(os.listdir(folder))), (0, b"", ["index.html", "page-2.html"]))
            self.assertIn("2 pages", said)

    def test_other_words(self):
        status, out, said = command()
        self.assertEqual((status, out, "recode" in said), (2, b"", True))
        status, out, said = command("help")
        self.assertEqual((status, out, "'help' is no job" in said), (2, b"stop BadWords\n", True))
        for words in (["picture", "--side", "x"], ["page"], ["stacked", "x", "1"], ["page", "shift", "more"]):
            self.assertEqual(command(*words)[:2], (2, b""))
        status, out, _ = command("--help")
        self.assertEqual((status, b"picture" in out), (0, True))
        self.assertEqual(command("--version"), (0, f"pigale {pigale.__version__}\n".encode(), ""))


class Result(unittest.TextTestResult):
    """What became of the tests, with a count of those that passed."""
    passed = 0

    def addSuccess(self, test):
        super().addSuccess(test)
        self.passed += 1


def main():
    suite = unittest.defaultTestLoader.loadTestsFromModule(sys.modules["__main__"])
    result = unittest.TextTestRunner(stream=sys.stdout, verbosity=0, resultclass=Result).run(suite)
    for line in sorted({f"{left_out(test)}: {cause}" for test, cause in result.skipped}):
        print(f"left out: {line}")
    failed = len(result.failures) + len(result.errors)
    print(f"{result.passed} passed, {failed} failed")
    return 1 if failed else 0


def left_out(test):
    """How a test that was left out is called: all those of a class by its name."""
    name = type(test).__name__
    return f"{name} (all its tests)" if getattr(type(test), "__unittest_skip__", False) else f"{name}.{test._testMethodName}"


if __name__ == "__main__":
    sys.exit(main())
