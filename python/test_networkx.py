#!/usr/bin/env python3
"""The tests of the calls of networkx and igraph: `python3 python/test_networkx.py` from anywhere.

networkx's own tests of planarity and of layouts run with these calls in place where pytest is there. Without networkx all
are left out, and the status is 77. The program is found as the package finds it.
"""
import importlib.util
import os
import random
import subprocess
import sys
import tempfile
import unittest

HERE = os.path.dirname(os.path.abspath(__file__))
sys.path.insert(0, HERE)
import pigale  # noqa: E402

try:
    import networkx
except ImportError:
    networkx = None

OWN_TESTS = """
import sys
import networkx, networkx.algorithms.planarity, networkx.drawing.layout, pytest
import pigale
for module in (networkx, networkx.algorithms, networkx.algorithms.planarity):
    module.check_planarity, module.is_planar = pigale.check_planarity, pigale.is_planar
for module in (networkx, networkx.drawing.layout):
    module.planar_layout = pigale.planar_layout
tests = [f"{networkx.__path__[0]}/{name}" for name in ("algorithms/tests/test_planarity.py", "algorithms/tests/test_planar_drawing.py", "drawing/tests/test_layout.py")]
sys.exit(pytest.main(["-q", "-p", "no:cacheprovider", *tests]))
"""
BACKEND = """
import warnings
import networkx
graph = networkx.petersen_graph()
planar, shown = networkx.check_planarity(graph, counterexample=True, backend="pigale")
assert not planar and all(graph.has_edge(*edge) for edge in shown.edges)
planar, embedding = networkx.check_planarity(networkx.cubical_graph(), backend="pigale")
assert planar
embedding.check_structure()
grid = networkx.grid_2d_graph(3, 3)
with warnings.catch_warnings():
    warnings.simplefilter("error")
    for _ in range(3):
        assert networkx.is_planar(grid, backend="pigale")
        assert networkx.check_planarity(grid, backend="pigale")[0]
"""


@unittest.skipUnless(networkx, "networkx is not there")
class Networkx(unittest.TestCase):
    def test_answers_are_those_of_networkx(self):
        source = random.Random(3)
        for k in range(80):
            n = source.randrange(12)
            graph = networkx.gnp_random_graph(n, source.random(), seed=k)
            if k % 3 == 0:
                graph = networkx.relabel_nodes(graph, {v: (f"v{v}", v) for v in graph})
            if k % 5 == 0 and n:
                graph.add_edge(list(graph)[0], list(graph)[0])
            planar, shown = pigale.check_planarity(graph, counterexample=True)
            self.assertEqual(planar, networkx.check_planarity(graph)[0])
            self.assertEqual(pigale.is_planar(graph), planar)
            edges = {frozenset(edge) for edge in graph.edges if edge[0] != edge[1]}
            if planar:
                shown.check_structure()
                self.assertEqual((set(shown), {frozenset(edge) for edge in shown.edges}), (set(graph), edges))
                for method in ("schnyder", "shift", "round"):
                    self.assertEqual(set(pigale.planar_layout(graph, method=method)), set(graph))
            else:
                self.assertIsNone(pigale.check_planarity(graph)[1])
                self.assertTrue({frozenset(edge) for edge in shown.edges} <= edges)
                self.assertIn(sorted(degree for _, degree in shown.degree if degree != 2), ([3] * 6, [4] * 5))

    def test_layouts_are_plane(self):
        graph = networkx.dodecahedral_graph()
        for method in ("schnyder", "shift", "convex", "round", "tutte"):
            positions = pigale.planar_layout(graph, scale=3, center=(5, 7), method=method)
            self.assertTrue(pigale.check(pigale.scaled(positions), graph.edges))
            self.assertAlmostEqual(max(max(abs(x - 5), abs(y - 7)) for x, y in positions.values()), 3)
        embedding = networkx.check_planarity(graph)[1]
        self.assertEqual(set(pigale.planar_layout(embedding)), set(graph))

    def test_slips(self):
        with self.assertRaisesRegex(networkx.NetworkXException, "G is not planar"):
            pigale.planar_layout(networkx.complete_graph(5))
        with self.assertRaisesRegex(ValueError, "2 dimensions"):
            pigale.planar_layout(networkx.path_graph(3), dim=3)
        with self.assertRaisesRegex(ValueError, "convex does not draw this graph: refused 1 8 CutVertex 2"):
            pigale.planar_layout(networkx.path_graph(4), method="convex")

    def test_networkx_keeps_no_conversion(self):
        graph = networkx.path_graph(4)
        graph.__networkx_cache__ = {"backends": {"pigale": {"key": graph}, "other": {}}, "more": 1}
        for call in (pigale.check_planarity, pigale.is_planar):
            graph.__networkx_cache__["backends"]["pigale"] = {"key": graph}
            call(graph)
            self.assertEqual(graph.__networkx_cache__, {"backends": {"other": {}}, "more": 1})

    def test_more_vertices_than_embed_reads(self):
        planar, embedding = pigale.check_planarity(networkx.path_graph(300))
        self.assertEqual((planar, len(embedding)), (True, 300))

    @unittest.skipUnless(importlib.util.find_spec("pytest"), "pytest is not there")
    def test_their_own_tests(self):
        done = subprocess.run([sys.executable, "-c", OWN_TESTS], stdout=subprocess.PIPE, stderr=subprocess.STDOUT, check=False,
                              env={**os.environ, "PYTHONPATH": os.pathsep.join(filter(None, [HERE, os.environ.get("PYTHONPATH")]))})
        self.assertEqual(done.returncode, 0, done.stdout.decode()[-3000:])

    def test_backend(self):
        if tuple(map(int, networkx.__version__.split(".")[:2])) < (3, 3):
            self.skipTest("this networkx has no backends by this name")
        with tempfile.TemporaryDirectory() as folder:
            about = os.path.join(folder, "pigale-1.0.0.dist-info")
            os.mkdir(about)
            for name, text in (("METADATA", "Metadata-Version: 2.1\nName: pigale\nVersion: 1.0.0\n"),
                               ("entry_points.txt", "[networkx.backends]\npigale = pigale.networkx_backend\n\n[networkx.backend_info]\npigale = pigale.networkx_backend:get_info\n")):
                with open(os.path.join(about, name), "w", encoding="ascii") as file:
                    file.write(text)
            done = subprocess.run([sys.executable, "-c", BACKEND], stdout=subprocess.PIPE, stderr=subprocess.STDOUT, check=False,
                                  env={**os.environ, "PYTHONPATH": os.pathsep.join(filter(None, [folder, HERE, os.environ.get("PYTHONPATH")]))})
            self.assertEqual(done.returncode, 0, done.stdout.decode()[-3000:])


@unittest.skipUnless(importlib.util.find_spec("igraph"), "igraph is not there")
class Igraph(unittest.TestCase):
    def test_graphs(self):
        import igraph
        graph, names = pigale.from_igraph(igraph.Graph.Famous("Petersen"))
        self.assertEqual((graph[0], len(graph[1]), names), (10, 15, list(range(10))))
        named = igraph.Graph.TupleList([("ann", "bob"), ("bob", "eve"), ("eve", "ann"), ("bob", "ann")])
        graph, names = pigale.from_igraph(named)
        self.assertEqual((graph, names), ((3, [(1, 2), (2, 3), (1, 3)]), ["ann", "bob", "eve"]))
        self.assertEqual(pigale.embed([graph])[0].job, "schnyder")


def main():
    suite = unittest.defaultTestLoader.loadTestsFromModule(sys.modules["__main__"])
    result = unittest.TextTestRunner(stream=sys.stdout, verbosity=0).run(suite)
    failed, left_out = len(result.failures) + len(result.errors), len(result.skipped)
    for line in sorted({f"{test.id().rpartition('.')[2]}: {cause}" for test, cause in result.skipped}):
        print(f"left out: {line}")
    print(f"{result.testsRun - failed - left_out} passed, {failed} failed, {left_out} skipped")
    return 1 if failed else 77 if left_out == result.testsRun else 0


if __name__ == "__main__":
    sys.exit(main())
