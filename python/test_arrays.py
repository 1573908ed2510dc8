#!/usr/bin/env python3
"""The tests of maps as arrays, and of what the library answers to many: `python3 python/test_arrays.py` from anywhere.

Where there is no library those that want one are left out, which is said. numpy and networkx are used where they are there.
"""
import os
import pickle
import random
import sys
import unittest
import unittest.mock
from array import array

HERE = os.path.dirname(os.path.abspath(__file__))
sys.path.insert(0, HERE)
import pigale  # noqa: E402
from pigale.answers import ends_of_line  # noqa: E402
from pigale.library import library, loaded  # noqa: E402

try:
    import numpy
except ImportError:
    numpy = None
try:
    import networkx
except ImportError:
    networkx = None

ROOT = os.path.dirname(HERE)
LIBRARY = library() or os.path.join(ROOT, "out", "library", "libpigale.so")
JOBS = ("shift", "schnyder", "convex", "bars", "rect")
MANY = ("shift_many", "schnyder_many", "convex_many", "bars_many", "rect_many", "count_many", "embed_many", "check_many")
INSIDE = ("faces", "edge_labelling")


def some_maps():
    """Maps that some jobs draw and others refuse, and lists that are none."""
    source = random.Random(7)
    return [*(pigale.triangulation(n, source) for n in range(3, 24)), pigale.prism(5), pigale.grid(4, 5), pigale.wheel(7), pigale.path(4),
            pigale.cycle(3), [[]], [[2], [1]], pigale.quadrangle(3, 4), pigale.tree(9, source), pigale.complete(5), [[2], []], [[1]],
            [[2, 2], [1]], [[5], []]]


def some_graphs():
    """Graphs as (n, edges), planar or not."""
    source = random.Random(8)
    return [(n, [(u, v) for v in range(1, n + 1) for u in range(1, v) if source.random() < 0.5]) for n in range(12) for _ in range(5)]


class Arrays(unittest.TestCase):
    def says(self, words, call, *values):
        with self.assertRaisesRegex(ValueError, words):
            call(*values)

    def test_a_map_is_as_its_lists(self):
        for lists in [*some_maps(), pigale.path(300)]:
            made = pigale.Map(lists)
            self.assertEqual((made, list(made), len(made)), (lists, lists, len(lists)))
            self.assertEqual([made[k] for k in range(-len(lists), len(lists))], lists + lists)
            self.assertEqual(made[1:], lists[1:])
            self.assertEqual(pigale.Map.of_arrays(made.ends, made.neighbours), made)
            self.assertEqual(pickle.loads(pickle.dumps(made)), made)
            self.assertEqual(pigale.edges_of(made), pigale.edges_of(lists))
        self.assertRaises(IndexError, lambda: pigale.Map([[2], [1]])[2])
        self.assertNotEqual(pigale.Map([[2], [1]]), [[2], [2]])
        self.assertNotEqual(pigale.Map([[2], [1]]), 7)
        made = pigale.Map.of_arrays([2, 4, 6], [1, 2, 2, 0, 0, 1])
        self.assertEqual(made, pigale.cycle(3))
        self.assertEqual(repr(made), "<Map of 3: [2, 3], [3, 1], [1, 2]>")

    def test_many_maps(self):
        maps = some_maps()
        for given in (maps, tuple(maps), iter(maps), [pigale.Map(lists) for lists in maps], pigale.write_planar_code(maps),
                      pigale.write_planar_code(maps, header=False), [*maps[:3], *map(pigale.Map, maps[3:])], [tuple(map(tuple, lists)) for lists in maps]):
            made = pigale.Maps(given)
            self.assertEqual((made, len(made), made[-1]), (maps, len(maps), maps[-1]))
            self.assertEqual(pigale.Maps.of_arrays(made.map_ends, made.ends, made.neighbours), maps)
        self.assertEqual(pigale.write_planar_code(pigale.Maps(maps)), pigale.write_planar_code(maps))
        large = [pigale.path(300), pigale.prism(3), pigale.path(255), pigale.path(256)]
        for given in (large, pigale.write_planar_code(large), pigale.write_planar_code(large[1:3]) + pigale.write_planar_code(large[:1])):
            self.assertEqual(pigale.Maps(given), pigale.read_planar_code(given) if isinstance(given, bytes) else large)
        self.assertEqual((list(pigale.Maps([])), list(pigale.Maps(b""))), ([], []))

    def test_planar_code_in_pieces(self):
        data = pigale.write_planar_code([pigale.stacked(3 + k % 60, k) for k in range(300)])
        for size in (1, 7, 100, 5000):
            with unittest.mock.patch("pigale.arrays.PIECE", size):
                self.assertEqual(pigale.Maps(data), pigale.read_planar_code(data))
        for cut in (len(data) - 1, len(data) - 50, 16, 17):
            self.says("the data end inside record", pigale.Maps, data[:cut])

    def test_what_is_no_map(self):
        self.says("a neighbour of vertex 1", pigale.Map, [[0]])
        self.says("a neighbour of vertex 1", pigale.Map, [[300]])
        self.says("a neighbour of vertex 1", pigale.Maps, [[[-1]]])
        self.says("1 to 65535", pigale.Map, [])
        self.says("give a list of maps", pigale.Maps, pigale.prism(3))
        self.says("ends do not rise to the number of neighbours, which is 3", pigale.Map.of_arrays, [1, 2], [0, 1, 2])
        self.says("ends do not rise", pigale.Map.of_arrays, [2, 1, 2], [0, 1])
        self.says("map_ends|number of ends", pigale.Maps.of_arrays, [1], [0, 0], [])
        self.says("neighbours are no array", pigale.Map.of_arrays, [1], [-1])
        self.says("neighbours are no array", pigale.Map.of_arrays, [1], [1.5])
        self.says("ends are no array", pigale.Map.of_arrays, b"12", [1])

    @unittest.skipUnless(numpy, "numpy is not there")
    def test_arrays_of_numpy(self):
        ends, neighbours = numpy.array([2, 4, 6]), numpy.array([1, 2, 2, 0, 0, 1])
        for kind in ("int64", "uint16", "uint64", "int32"):
            self.assertEqual(pigale.Map.of_arrays(ends.astype(kind), neighbours.astype(kind)), pigale.cycle(3))
        self.assertEqual(pigale.Map.of_arrays(ends, numpy.repeat(neighbours, 2)[::2]), pigale.cycle(3))
        self.says("neighbours are no array.*is not from 0 to 65535", pigale.Map.of_arrays, ends, neighbours + 70000)
        self.says("neighbours are no array.*the type float64", pigale.Map.of_arrays, ends, neighbours / 2)
        self.assertEqual(numpy.asarray(pigale.Map(pigale.cycle(3)).neighbours).tolist(), neighbours.tolist())
        triangle = numpy.array(pigale.cycle(3))
        self.assertEqual(pigale.write_planar_code([triangle]), pigale.write_planar_code([pigale.cycle(3)]))
        self.assertEqual(pigale.Maps([triangle, [numpy.array(us) for us in pigale.wheel(5)]]), [pigale.cycle(3), pigale.wheel(5)])

    def test_lines_of_graph6(self):
        for graph in [*some_graphs(), (62, [(1, 62)]), (63, [(1, 63)]), (255, [(1, 2), (254, 255)])]:
            n, edges = graph
            found = ends_of_line(pigale.write_graph6(graph))
            self.assertEqual((found[0], [(u + 1, v + 1) for u, v in zip(found[1][::2], found[1][1::2])]), (n, sorted(edges, key=lambda edge: edge[::-1])))
        for line in ("", "~", "C", "C~~", "C~\n", ">>graph6<<C~", "~?@?" + "?" * 400, "~~?????", "B~", "\u00e4", "B\x20", "~??B~"):
            self.assertIsNone(ends_of_line(line), line)


@unittest.skipUnless(os.path.exists(LIBRARY), "there is no library")
class Library(unittest.TestCase):
    """What the library answers in arrays is what the program writes."""

    def answers(self, call, *values):
        """The answers by the library: by calls for many, and as where a library has none of these; and those of the program."""
        found = []
        for path, is_old in ((LIBRARY, False), (LIBRARY, True), ("", False)):
            old = unittest.mock.patch("pigale.typed._TYPES", {name: words for name, words in pigale.typed._TYPES.items() if "many" not in name and name not in INSIDE or not is_old})
            with unittest.mock.patch.dict(os.environ, PIGALE_LIBRARY=path), old:
                pigale.typed._call.cache_clear()
                found.append(call(*values))
        pigale.typed._call.cache_clear()
        return found

    def test_figures(self):
        maps = some_maps()
        for job in JOBS:
            for given in (maps, [pigale.Map(lists) for lists in maps], pigale.Maps(maps), pigale.write_planar_code(maps)):
                many, single, told = self.answers(pigale.draw, given, job)
                self.assertIsInstance(many, pigale.Figures)
                self.assertIsInstance(told, list)
                self.assertEqual(many, told)
                self.assertEqual(single, told)
                self.assertEqual((many[-1], many[2:4], [many[3], many[-4]], many.columns), (told[-1], told[2:4], [told[3], told[-4]], single.columns))
            self.assertEqual(many.table(), {**{"drawn": sum(not isinstance(figure, pigale.Refused) for figure in told)},
                                            **{name: sum(getattr(figure, "name", "") == name for figure in told) for name in many.table() if name != "drawn"}})

    def test_columns(self):
        figures = self.answers(pigale.draw, [pigale.prism(4), [[2], []], pigale.wheel(6)], "schnyder")[0]
        places = figures[0].places + [(0, 0)] * 2 + figures[2].places
        self.assertEqual(list(zip(figures.columns["x"], figures.columns["y"])), places)
        self.assertEqual((list(figures.statuses), figures.table()), ([0, 4, 0], {"drawn": 2, "OneSided": 1}))
        self.assertEqual(repr(figures[:1])[:12], "[GridFigure(")

    def test_counts(self):
        maps = some_maps()
        many, single, told = self.answers(pigale.count, maps)
        self.assertEqual((many, single), (told, told))
        table = {}
        for one in told:
            key = one.name if isinstance(one, pigale.Refused) else (one.n, one.m, one.f, one.c, one.genus)
            table[key] = table.get(key, 0) + 1
        self.assertEqual((many.table(), single.table()), (table, table))
        self.assertEqual(pigale.count([]), [])

    def test_embeddings(self):
        graphs = some_graphs()
        for given in (graphs, [pigale.write_graph6(graph) for graph in graphs], [(n, set(edges)) for n, edges in graphs],
                      [(n, [list(edge) for edge in edges]) for n, edges in graphs], [(n, [*edges, *edges[:2]]) for n, edges in graphs]):
            many, single, told = self.answers(pigale.embed, given)
            self.assertIsInstance(many, pigale.Embeddings)
            self.assertEqual((many, single), (told, told))
        for most in (1, 7):
            with unittest.mock.patch("pigale.typed.AT_A_TIME", most):
                self.assertEqual(self.answers(pigale.embed, graphs)[0], told)
        self.assertEqual(sum(many.table().values()), len(graphs))
        self.assertEqual(many.table()["planar"], sum(isinstance(answer, pigale.GridFigure) for answer in told))
        with self.assertRaises(pigale.PigaleError):
            pigale.embed(["C~", "C"])
        for graph, words in (((3, [(1, 4)]), "1 4 is no edge"), ((3, [(2, 2)]), "2 2 is no edge"), ((256, []), "up to 255"), ((3, [(0, 1)]), "0 1 is no edge"),
                             ((3, [(1,), (1, 2, 3)]), "an edge is a pair"), ((3, [(1, 2, {})]), "without data")):
            with self.assertRaisesRegex(ValueError, f"graph 2.*{words}"):
                pigale.embed([(0, []), graph])

    @unittest.skipUnless(networkx, "networkx is not there")
    def test_graphs_of_networkx(self):
        graph = networkx.dodecahedral_graph()
        embedding = networkx.check_planarity(graph)[1]
        for many in self.answers(pigale.draw, [embedding, pigale.prism(3)], "convex"):
            self.assertEqual(many, pigale.draw([pigale.from_networkx(embedding)[0], pigale.prism(3)], "convex"))
        for many in self.answers(pigale.embed, [graph, networkx.petersen_graph(), "C~"]):
            self.assertEqual([answer.job for answer in many], ["schnyder", "witness", "schnyder"])

    def test_drawings(self):
        """Drawings are judged as by the program, however they are given."""
        source = random.Random(9)
        drawings = []
        for k in range(200):
            places = [(source.randrange(-9, 9), source.randrange(9)) for _ in range(6)]
            pairs = source.sample([(u, v) for v in range(6) for u in range(v)], 5)
            if k % 10 == 0:
                pairs.append(source.choice([(2, 2), pairs[0], pairs[0][::-1]]))
            names = [f"v{v}" for v in range(6)]
            drawings += [(places, pairs), (dict(zip(names, places)), [(names[u], names[v]) for u, v in pairs]),
                         ([(float(x), y) for x, y in places], iter(pairs)), (places, pairs, dict(enumerate([u - 1 for u in us] for us in pigale.rotations_of(
                             places, [(u + 1, v + 1) for u, v in pairs])))) if k % 10 and len(set(places)) == 6 else ([(0, 0)], [])]
        drawings = [(places, list(edges), *more) for places, edges, *more in drawings]
        many, _, told = self.answers(pigale.check_all, drawings)
        self.assertEqual(many, told)
        self.assertEqual({"yes", "SamePlace", "OnEdge", "Cross", "Loop", "Repeated"} - {answer.name for answer in told}, set())

    def test_figures_are_judged(self):
        """Straight-line drawings as `draw` makes them, and changed so that they have each fault."""
        source, maps = random.Random(10), [*(pigale.triangulation(n, random.Random(n)) for n in range(4, 20)), pigale.grid(4, 5), pigale.path(4)]
        figures = [figure for job in ("shift", "schnyder") for figure in pigale.draw(maps, job)]
        for k in range(300):
            figure = source.choice(figures[:32])
            places, lists = list(figure.places), [list(us) for us in figure.lists]
            v = source.randrange(len(lists))
            places[v] = (places[v][0] + source.randrange(-4, 3), places[v][1] + source.randrange(3))
            if k % 3 == 1:
                lists[v] = lists[v][::-1]
            if k % 9 == 2:
                source.choice((lists[v].pop, lambda us=lists[v]: us.append(us[0]), lambda us=lists[v]: us.append(v + 1)))()
            figures.append(pigale.GridFigure(1, "shift", places, lists))
        near = [figure for figure in figures if min(map(min, figure.places)) >= 0]
        for given in (figures, near, figures[:5], []):
            many, single, told = self.answers(pigale.check_all, given)
            self.assertEqual((many, single), (told, told))
        self.assertEqual({answer.name for answer in self.answers(pigale.check_all, figures)[0]},
                         {"yes", "SamePlace", "OnEdge", "Cross", "Turned", "Loop", "Repeated", "OneSided"})
        mixed = [figures[0], ([(0, 0), (2, 2), (2, 0), (0, 2)], [(0, 1), (2, 3)]), figures[40]]
        for found in self.answers(pigale.check_all, mixed):
            self.assertEqual((str(found[1]), list(found)), ("Cross 0 1 2 3", found[:3]))
        with unittest.mock.patch.dict(os.environ, PIGALE_LIBRARY=LIBRARY):
            drawn = pigale.draw(maps, "schnyder")
            found = pigale.check_all(drawn)
            self.assertIsInstance(found, pigale.Verdicts)
            self.assertEqual((found, set(found.statuses)), (pigale.check_all(list(drawn)), {0}))
            self.assertTrue(all(found))
            for column in drawn.columns.values():
                column[0] = column[1]
            self.assertEqual(str(pigale.check_all(drawn)[0]), "SamePlace 1 2")

    def test_what_is_no_straight_line_drawing(self):
        figure = pigale.GridFigure(1, "shift", [(0, 0), (1, 0), (0, 1)], pigale.cycle(3))
        bars = pigale.draw([pigale.cycle(3)], "bars")[0]
        for other, words in ((bars, "entry 2 is no straight-line drawing, but BarFigure"), (pigale.draw([[[], []]], "convex")[0], "entry 2.*NotConnected|entry 2.*Small"),
                             (pigale.GridFigure(2, "shift", [(0, 0), (1, 0)], [[2], [3]]), "entry 2 names a vertex that it does not have"),
                             (pigale.GridFigure(2, "shift", [(0, 0), (1, 0), (2, 0)], [[2], [1]]), "entry 2 .* has more places than vertices"),
                             (pigale.GridFigure(2, "shift", [(0, 0)], [[2], [1]]), "entry 2 names a vertex")):
            for path in (LIBRARY, ""):
                with unittest.mock.patch.dict(os.environ, PIGALE_LIBRARY=path), self.assertRaisesRegex(ValueError, words):
                    pigale.check_all([figure, other])
        with unittest.mock.patch.dict(os.environ, PIGALE_LIBRARY=LIBRARY):
            for drawn, words in ((pigale.draw([pigale.cycle(3)], "bars"), "entry 1 .*BarFigure"), (pigale.draw([pigale.cycle(3), [[2], []]], "shift"), "entry 2 .*OneSided")):
                with self.assertRaisesRegex(ValueError, words):
                    pigale.check_all(drawn)

    def test_faces(self):
        for lists in some_maps():
            many, old, told = self.answers(lambda lists=lists: list(map(self.faces, (lists, pigale.Map(lists)))) if lists != [[5], []] else 0)
            self.assertEqual((many, old), (told, told))
        for found in self.answers(self.faces, [[2], [0]]):
            self.assertIsNone(found)

    def faces(self, lists):
        try:
            return pigale.faces_of(lists)
        except KeyError:
            return None

    def test_edge_labellings(self):
        with open(os.path.join(ROOT, "examples", "platonic.plc"), "rb") as file:
            opened = [pigale.without_edge(lists, 1, lists[0][0]) for lists in pigale.read_planar_code(file)[:2]]
        maps = [*some_maps()[:-2], *(pigale.quadrangle(a, b) for a in range(1, 6) for b in range(1, 6)), *opened]
        few = 0
        for lists in maps:
            many, old, told = self.answers(pigale.edge_labelling, lists)
            self.assertEqual((many, old), (told, told))
            if isinstance(told, pigale.Refused):
                continue
            few += 1
            outer = set(pigale.faces_of(lists)[0])
            for v, sides in enumerate(many, 1):
                if v not in outer:
                    turns = [(one, other) for one, other in zip(sides, sides[1:] + sides[:1]) if one != other]
                    self.assertEqual(sorted(turns), [("down", "left"), ("left", "up"), ("right", "down"), ("up", "right")])
        self.assertGreater(few, 25)

    def test_coordinates_far_off(self):
        with unittest.mock.patch.dict(os.environ, PIGALE_LIBRARY=LIBRARY):
            self.assertTrue(pigale.check([(10**9, 0), (10**9 + 5, 1), (10**9, 7)], [(0, 1), (1, 2)]))
            self.assertEqual(str(pigale.check([(10**9, 0), (10**9, 8), (10**9, 7)], [(0, 1)])), "OnEdge 2 0 1")
            self.assertTrue(pigale.check([], []))
            with self.assertRaisesRegex(ValueError, "an edge or a rotation names 3, which has no place"):
                pigale.check([(0, 0), (1, 1), (2, 0)], [(0, 3)])

    def test_maps_that_are_too_large(self):
        for many in (pigale.draw, pigale.count):
            with self.assertRaisesRegex(ValueError, "map 2 has 4096 vertices: the program reads up to 4095"):
                self.answers(many, [pigale.path(5), pigale.path(4096)])

    def test_calls_that_the_library_has(self):
        """Says which calls for many maps the library has not."""
        wanting = [name for name in MANY + INSIDE if not hasattr(loaded(LIBRARY), f"pigale_{name}")]
        if wanting:
            self.skipTest(f"the library has no {', '.join(wanting)}")


def main():
    suite = unittest.defaultTestLoader.loadTestsFromModule(sys.modules["__main__"])
    result = unittest.TextTestRunner(stream=sys.stdout, verbosity=0).run(suite)
    failed, left_out = len(result.failures) + len(result.errors), len(result.skipped)
    for line in sorted({f"{test.id().rpartition('.')[2]}: {cause}" for test, cause in result.skipped}):
        print(f"left out: {line}")
    print(f"{result.testsRun - failed - left_out} passed, {failed} failed, {left_out} skipped")
    return 1 if failed else 0


if __name__ == "__main__":
    sys.exit(main())
