#!/usr/bin/env python3
"""The tests of graphs with names, read and drawn and written: `python3 python/test_drawings.py` from anywhere.

Its last lines say what was left out: without networkx the formats that it reads, and without rsvg-convert, pdflatex and the
like what they make. The program is found as the package finds it.
"""
import csv
import gzip
import importlib.util
import io
import json
import os
import random
import shutil
import subprocess
import sys
import tempfile
import unittest
import unittest.mock
from xml.etree import ElementTree

HERE = os.path.dirname(os.path.abspath(__file__))
TOP = os.path.dirname(HERE)
sys.path.insert(0, HERE)
import pigale  # noqa: E402
from pigale.crossings import one_crossing  # noqa: E402
from pigale.drawn import METHODS, draw_named  # noqa: E402
from pigale.kinds import kind_of  # noqa: E402
from pigale.pictures import text_width  # noqa: E402
from pigale.readers import Named, ReadFault, graphs_of, read_graphs  # noqa: E402
from pigale.rounds import round_drawing, rounded  # noqa: E402
from pigale.slips import blamed  # noqa: E402
from pigale.tikz_pictures import escaped, tikz, tikz_document  # noqa: E402
from pigale.writers import Look, written  # noqa: E402

try:
    import networkx
except ImportError:
    networkx = None

SVG = "{http://www.w3.org/2000/svg}"
FRIENDS = "ann bob\nbob eve\neve ann\nbob dan\ndan eve\n"


def command(*words, data=b"", **environment):
    """A run of the package's commands: its status, its output and what it says besides."""
    done = subprocess.run([sys.executable, os.path.join(HERE, "pigale.py"), *words], input=data, stdout=subprocess.PIPE,
                          stderr=subprocess.PIPE, check=False, env={**os.environ, **environment})
    return done.returncode, done.stdout, done.stderr.decode()


def edges_by_name(graph):
    return {frozenset((graph.names[u - 1], graph.names[v - 1])) for u, v in graph.edges}


def random_graphs(count):
    """Graphs of networkx with up to nine vertices, with names of several kinds."""
    source = random.Random(1)
    graphs = []
    for k in range(count):
        n = source.randrange(1, 10)
        names = [f"{'abcdefghi'[v]}{source.choice(['', '-1', 'ö', '.x', '_7'])}" for v in range(n)] if k % 2 else list(range(n))
        graph = networkx.Graph()
        graph.add_nodes_from(names)
        graph.add_edges_from((u, v) for i, u in enumerate(names) for v in names[:i] if source.random() < 0.4)
        graphs.append(graph)
    return graphs


@unittest.skipUnless(networkx, "networkx is not there")
class Formats(unittest.TestCase):
    """Each format that networkx writes too is read as networkx reads it, with all names."""

    def test_formats_of_networkx(self):
        graphs = random_graphs(500)
        written_by = {
            "graphml": lambda graph: "\n".join(networkx.generate_graphml(graph)).encode(),
            "gexf": lambda graph: "\n".join(networkx.generate_gexf(graph)).encode(),
            "gml": lambda graph: "\n".join(networkx.generate_gml(graph)).encode(),
            "pajek": lambda graph: "\n".join(networkx.generate_pajek(graph)).encode(),
            "adjacency": lambda graph: "\n".join(networkx.generate_adjlist(graph)).encode(),
            "edges": lambda graph: "\n".join(networkx.generate_edgelist(graph, data=False)).encode(),
            "json": lambda graph: json.dumps(networkx.node_link_data(graph)).encode(),
            "graph6": lambda graph: networkx.to_graph6_bytes(networkx.convert_node_labels_to_integers(graph)),
            "sparse6": lambda graph: networkx.to_sparse6_bytes(networkx.convert_node_labels_to_integers(graph)),
        }
        for kind, write in written_by.items():
            for graph in graphs:
                wanted = {frozenset(map(str, edge)) for edge in graph.edges}
                names = set(map(str, graph))
                if kind in ("graph6", "sparse6"):
                    number = {name: v for v, name in enumerate(graph, 1)}
                    wanted, names = {frozenset(str(number[name]) for name in edge) for edge in graph.edges}, set(map(str, number.values()))
                if kind == "edges":
                    names = {name for edge in wanted for name in edge}  # a list of edges has no other vertices
                    if not names:
                        continue
                found = graphs_of(write(graph), kind=kind)
                self.assertEqual(len(found), 1)
                self.assertEqual(set(map(str, found[0].names)), names, kind)
                self.assertEqual({frozenset(map(str, edge)) for edge in edges_by_name(found[0])}, wanted, kind)

    def test_drawings_written_for_networkx(self):
        graphs = [Named.of_networkx(graph) for graph in random_graphs(500) if len(graph) > 2]
        drawings = [drawn for drawn in draw_named(graphs, "schnyder") if drawn.is_drawing]
        self.assertGreater(len(drawings), 250)
        for drawn in drawings:
            wanted = {frozenset(map(str, edge)) for edge in edges_by_name(drawn.graph)}
            places = {str(name): place for name, place in zip(drawn.graph.names, drawn.figure.places)}
            read = networkx.parse_graphml(written([drawn], "graphml", Look()).decode())
            self.assertEqual({frozenset(edge) for edge in read.edges}, wanted)
            self.assertEqual({name: (data["x"], data["y"]) for name, data in read.nodes(data=True)}, places)
            found = json.loads(written([drawn], "json", Look()))
            self.assertEqual({frozenset((str(link["source"]), str(link["target"]))) for link in found["links"]}, wanted)
            self.assertEqual({str(node["id"]): (node["x"], node["y"]) for node in found["nodes"]}, places)
            rows = list(csv.DictReader(io.StringIO(written([drawn], "csv", Look()).decode())))
            self.assertEqual({row["vertex"]: (int(row["x"]), int(row["y"])) for row in rows}, places)
            text = written([drawn], "txt", Look()).decode()
            self.assertEqual(pigale.read_figures(text)[0].places, drawn.figure.places)

    def test_first_bytes_and_endings_say_the_format(self):
        def as_json(graph, path):
            with open(path, "w", encoding="utf-8") as file:
                json.dump(networkx.node_link_data(graph), file)

        graph = networkx.florentine_families_graph()
        with tempfile.TemporaryDirectory() as folder:
            for ending, write in (("graphml", networkx.write_graphml), ("gexf", networkx.write_gexf), ("gml", networkx.write_gml), ("net", networkx.write_pajek),
                                  ("s6", networkx.write_sparse6), ("json", as_json)):
                path = os.path.join(folder, f"graph.{ending}")
                write(graph, path)
                with open(path, "rb") as file:
                    data = file.read()
                for found in (read_graphs(path), graphs_of(data), graphs_of(gzip.compress(data))):
                    self.assertEqual((len(found[0].names), len(found[0].edges)), (15, 20), ending)
                    if ending != "s6":
                        self.assertIn("Medici", found[0].names)

    @unittest.skipUnless(importlib.util.find_spec("pydot"), "pydot is not there")
    def test_dot(self):
        found = graphs_of(b'graph G { a -- "b c"; "b c" -- d; d -- a; e; }')[0]
        self.assertEqual(edges_by_name(found), {frozenset(pair) for pair in (("a", "b c"), ("b c", "d"), ("d", "a"))})
        self.assertIn("e", found.names)

    def test_arcs_both_ways_are_one_edge(self):
        graph = networkx.DiGraph([("a", "b"), ("b", "a"), ("b", "c"), ("c", "c")])
        found = Named.of_networkx(graph)
        self.assertEqual(edges_by_name(found), {frozenset("ab"), frozenset("bc")})

    def test_adjacency_lists_with_colons(self):
        found = graphs_of(b"1: 2 3\n2: 1 3\n3: 1 2\n", kind="adjacency")[0]
        self.assertEqual((found.names, len(found.edges)), (["1", "2", "3"], 3))

    def test_labels_are_names(self):
        graph = networkx.Graph([(1, 2)])
        networkx.set_node_attributes(graph, {1: "one", 2: "two"}, "label")
        self.assertEqual(Named.of_networkx(graph).names, ["one", "two"])
        embedding = networkx.check_planarity(networkx.cube_graph())[1] if hasattr(networkx, "cube_graph") else networkx.check_planarity(networkx.cubical_graph())[1]
        self.assertEqual(len(Named.of_networkx(embedding).lists), 8)


class Readers(unittest.TestCase):
    """What is read without networkx."""

    def test_edges(self):
        for text in (FRIENDS, FRIENDS.replace(" ", ","), FRIENDS.replace(" ", "\t"), "# friends\n" + FRIENDS.replace("\n", " 1.5\n"), "\ufeff" + FRIENDS.replace("\n", "\r\n")):
            found = graphs_of(text.encode())[0]
            self.assertEqual((found.names, len(found.edges), found.has_names), (["ann", "bob", "eve", "dan"], 5, True))
        self.assertEqual(graphs_of(b"10 2\n2 1\n")[0].names, ["1", "2", "10"])
        self.assertEqual(graphs_of(b"a b\nb a\na a\na b\nc\n", kind="edges")[0].left_out, ["1 loop", "2 edges that are there already"])
        with self.assertRaisesRegex(ReadFault, "x.edges, line 2: an edge is two names, and this line has 4"):
            graphs_of(b"a b\na b c d\n", "x.edges", "edges")

    def test_matrices(self):
        for text in ("011\n101\n110\n", "0 1 1\n1 0 1\n1 1 0\n", "0,1,1\n1,0,1\n1,1,0\n"):
            self.assertEqual(graphs_of(text.encode())[0].edges, [(1, 2), (1, 3), (2, 3)])
        self.assertEqual(len(graphs_of(b"010\n101\n010\n011\n101\n110\n", kind="matrix")), 2)
        for text, words in (("011\n100\n110\n", "line 2: entry 3 of row 2"), ("011\n101\n", "3 columns and 2 rows"), ("011\n10\n110\n", "line 2: a row of a matrix of 3 columns")):
            with self.assertRaisesRegex(ReadFault, words):
                graphs_of(text.encode(), kind="matrix")

    def test_maps(self):
        maps = [pigale.prism(3), pigale.wheel(5)]
        for data in (pigale.write_planar_code(maps), gzip.compress(pigale.write_planar_code(maps))):
            self.assertEqual([graph.lists for graph in graphs_of(data)], maps)
        self.assertEqual(graphs_of(b"4 bcd,adc,abd,acb\n")[0].lists, [[2, 3, 4], [1, 4, 3], [1, 2, 4], [1, 3, 2]])
        little = b">>planar_code le<<\0" + bytes([2, 0, 2, 0, 0, 0, 1, 0, 0, 0])
        self.assertEqual(graphs_of(little)[0].lists, [[2], [1]])
        self.assertEqual([len(graph.names) for graph in graphs_of(b">>graph6<<C~\r\n\r\nD~{>>graph6<<Bw")], [4, 5, 3])

    def test_without_networkx(self):
        with unittest.mock.patch("importlib.import_module", side_effect=ImportError):
            for kind, data in (("sparse6", b":An\n"), ("gml", b"graph [ ]"), ("graphml", b"<graphml/>"), ("adjacency", b"a b c\n")):
                with self.assertRaisesRegex(ReadFault, "read by networkx, which is not there: pip install networkx"):
                    graphs_of(data, kind=kind)
            self.assertEqual(len(graphs_of(FRIENDS.encode())[0].edges), 5)

    def test_what_is_no_graph(self):
        for data, kind, words in ((b"", "", "there is nothing"), (b"<svg/>", "", "a picture or a page"), (b"PK\3\4", "", "an archive"), (b"figure 1 shift 3\n", "", "the text of figures"),
                                  (b"hello there, what is this text about?\nNothing.\n", "", "no format that is known"), (b"{", "json", "not JSON"), (b"C~\n", "planar_code", "not planar_code.*--from graph6"),
                                  (b"D~\n", "graph6", "line 1: a line of graph6 for 5 vertices has another length"), (b"\x1f\x8b\x08\0", "", "gzip"), (b"4 bcd,adc\n", "", "line 1: no map of plantri -a"),
                                  (b"a \xff\n", "edges", "byte 2 is not UTF-8")):
            with self.assertRaisesRegex(ReadFault, words):
                graphs_of(data, kind=kind)

    def test_kinds(self):
        for data, kind in ((b"1 2\n2 3\n", "edges"), (b"1 2 3\n2 3\n", "adjacency"), (b"graph [\n", "gml"), (b"strict graph { a -- b }", "dot"), (b"*Vertices 3\n", "pajek"),
                           (b'{"nodes": []}', "json"), (b"<?xml version='1.0'?><graphml>", "graphml"), (b"\x03\x02\0", "planar_code"), (b":An\n", "sparse6"), (b"", "empty")):
            self.assertEqual(kind_of(data), kind, data)


class Drawing(unittest.TestCase):
    def judged(self, drawn):
        """Whether the drawing of a graph is one, by the program: of just its edges, and with the rotations of its figure."""
        figure, graph = drawn.figure, drawn.graph
        self.assertEqual(sorted(pigale.edges_of(figure.lists)), sorted(graph.edges))
        return pigale.check(figure.places, [(u - 1, v - 1) for u, v in graph.edges], {v - 1: [u - 1 for u in us] for v, us in enumerate(figure.lists, 1)})

    def test_round_drawings(self):
        maps = [pigale.grid(6, 6), pigale.prism(20), pigale.wheel(12), pigale.tree(25, random.Random(2)), pigale.path(9), pigale.stacked(30, 1), pigale.cycle(5),
                pigale.without_edge(pigale.wheel(7), 1, 2)]
        for drawn in draw_named([Named.of_map(lists) for lists in maps]):
            self.assertEqual((drawn.method, str(self.judged(drawn))), ("round", "yes"), drawn.said())
        for drawn in draw_named([Named.of_map(pigale.grid(5, 5)), Named.of_map(pigale.prism(9))], "tutte"):
            self.assertEqual((drawn.method, str(self.judged(drawn))), ("tutte", "yes"))

    def test_several_components(self):
        two = graphs_of(b"a b\nb c\nc a\nd e\nf g\ng h\nh f\nf i\n", kind="edges")[0]
        drawn = draw_named([two])[0]
        self.assertEqual((drawn.method, str(self.judged(drawn))), ("round", "yes"))

    def test_what_is_not_judged_plane_is_proved(self):
        with unittest.mock.patch("pigale.drawn._Judge.says_yes", lambda *_: False):
            drawings = draw_named([Named.of_map(pigale.prism(4)), Named.of_map(pigale.path(4))])
        self.assertEqual([drawn.method for drawn in drawings], ["convex", "schnyder"])
        self.assertIn("no round drawing was judged plane", drawings[0].said())

    def test_methods_and_outer_faces(self):
        graph = graphs_of(FRIENDS.encode())[0]
        for method in METHODS:
            drawn = draw_named([graph], method)[0]
            self.assertEqual(drawn.is_drawing, method not in ("convex", "rect"), method)
        cube = Named.of_map(pigale.prism(5))
        for names in ("6,7,8", "1,2,7", "largest", ["6", "7"]):
            drawn = draw_named([cube], "schnyder", names)[0]
            self.assertTrue(self.judged(drawn))
            wanted = {1, 2, 3, 4, 5} if names == "largest" else set(map(int, names.split(",") if isinstance(names, str) else names))
            # the outer face is the one of negative area
            outer = [face for face in pigale.faces_of(drawn.figure.lists)
                     if sum(a[0] * b[1] - a[1] * b[0] for a, b in zip(*[[drawn.figure.places[v - 1] for v in face[k:] + face[:k]] for k in (0, 1)])) < 0]
            self.assertTrue(wanted <= set(outer[0]) or names == "largest" and len(outer[0]) == 5, (names, outer))
        for names, words in (("1,9", "no face of the map has 1, 9"), ("1,zoe", "no vertex is called zoe")):
            with self.assertRaisesRegex(ValueError, words):
                draw_named([cube], "round", names)
        bars = draw_named([cube], "bars", "6,7,8")[0].figure
        self.assertEqual(pigale.run("verify", [pigale.BarFigure(1, bars.heights, bars.spans, bars.lists, bars.columns)]).answers[0].name in ("yes", "Turned"), True)

    def test_names_are_kept(self):
        graph = graphs_of("\n".join(f"{a} {b}" for a in ("water", "gas", "power") for b in ("Ann's", "Bö", "<C>")).encode())[0]
        drawn = draw_named([graph])[0]
        self.assertRegex(drawn.said(), "not planar: it has a subdivision of K3,3 with the branch vertices (water|Ann's|Bö|<C>|gas|power)")
        self.assertEqual(set(drawn.to_dict()["witness"]["branches"]), set(graph.names))
        picture = written([drawn], "svg", Look())
        texts = {element.text for element in ElementTree.fromstring(picture).iter(f"{SVG}text")}
        self.assertEqual(texts, set(graph.names))
        refused = draw_named([graphs_of(FRIENDS.encode())[0]], "convex")[0]
        self.assertRegex(refused.said(), "bob and eve are a separating pair|eve and bob")

    def test_large_graphs(self):
        graph = Named.of_pairs(range(300), [(v, v + 1) for v in range(299)])
        if networkx:
            self.assertTrue(draw_named([graph], "schnyder")[0].is_drawing)
        with unittest.mock.patch("importlib.import_module", side_effect=ImportError):
            with self.assertRaisesRegex(ValueError, "embed finds maps of up to 255"):
                draw_named([graph], "schnyder")

    def test_round_by_hand(self):
        made = round_drawing(pigale.cycle(4), lambda places, size: True, (10,))
        self.assertEqual(made.places, rounded([(-0.5 ** 0.5, -0.5 ** 0.5), (-0.5 ** 0.5, 0.5 ** 0.5), (0.5 ** 0.5, 0.5 ** 0.5), (0.5 ** 0.5, -0.5 ** 0.5)], 10))
        self.assertIsNone(round_drawing(pigale.cycle(4), lambda places, size: False, (10, 20)))
        wheel = round_drawing(pigale.outside(pigale.wheel(6), 1, 2), lambda places, size: True, (1000,))
        self.assertEqual(wheel.places[5], (500, 500))


class Writers(unittest.TestCase):
    def setUp(self):
        self.drawn = draw_named([graphs_of(FRIENDS.encode())[0]])[0]

    def test_tables_and_json(self):
        rows = list(csv.DictReader(io.StringIO(written([self.drawn], "csv", Look()).decode())))
        self.assertEqual([row["vertex"] for row in rows], self.drawn.graph.names)
        self.assertEqual([(int(row["x"]), int(row["y"])) for row in rows], self.drawn.figure.places)
        found = json.loads(written([self.drawn], "json", Look()))
        places, edges = pigale.read_drawing("a.json", json.dumps(found))
        self.assertTrue(pigale.check(places, edges))
        self.assertEqual(len(json.loads(written([self.drawn] * 2, "json", Look()))), 2)
        places, edges = pigale.read_drawing("a.graphml", written([self.drawn], "graphml", Look()).decode())
        self.assertTrue(pigale.check(places, edges))
        if networkx:
            graph = networkx.parse_graphml(written([self.drawn], "graphml", Look()).decode())
            self.assertEqual({frozenset(edge) for edge in graph.edges}, edges_by_name(self.drawn.graph))

    def test_texts(self):
        drawings = draw_named([self.drawn.graph, Named.of_map(pigale.prism(4))], "schnyder")
        text = written(drawings, "txt", Look()).decode()
        self.assertEqual([answer.name for answer in pigale.run("verify", text).answers], ["yes", "yes"])
        with self.assertRaisesRegex(ValueError, "a round drawing is by none"):
            written([self.drawn], "txt", Look())

    def test_labels_do_not_overlap_and_stay_within(self):
        graph = Named.of_pairs([f"name {k} of it" for k in range(12)], [(f"name {k} of it", f"name {(k + 1) % 12} of it") for k in range(12)])
        root = ElementTree.fromstring(written(draw_named([graph]), "svg", Look()))
        width = float(root.get("width"))
        shift = [float(element.get("transform")[10:-1]) for element in root.iter(f"{SVG}g") if element.get("transform")]
        boxes = {}
        for element in root.iter(f"{SVG}text"):
            x, y, size = float(element.get("x")) + sum(shift), float(element.get("y")), float(element.get("font-size"))
            half = text_width(element.text) * size / 2
            boxes[element.text] = (x - half, y - size / 2, x + half, y + size / 2)
            self.assertTrue(0 <= x - half and x + half <= width, element.text)
        found = list(boxes.values())
        for k, one in enumerate(found):
            for other in found[:k]:
                self.assertFalse(one[0] < other[2] and other[0] < one[2] and one[1] + 1 < other[3] and other[1] + 1 < one[3], (one, other))
        self.assertEqual(len(boxes), 12)

    def test_labels_by_word(self):
        for word, wanted in (("names", {"ann", "bob", "dan", "eve"}), ("numbers", {"1", "2", "3", "4"}), ("none", set())):
            root = ElementTree.fromstring(written([self.drawn], "svg", Look(word)))
            self.assertEqual({element.text for element in root.iter(f"{SVG}text")}, wanted)
        self.assertIn("judged plane by the proved program", root.find(f"{SVG}title").text)

    def test_marked_vertices_and_the_dual(self):
        root = ElementTree.fromstring(written([self.drawn], "svg", Look(marked=["ann", "bob", "dan"])))
        red = pigale.pictures.STYLE["light"]["even"]
        groups = [group for group in root.iter(f"{SVG}g") if red in (group.get("stroke"), group.get("fill"))]
        self.assertEqual(sum(len(group.findall(f"{SVG}line")) for group in groups), 2)
        self.assertEqual(sum(len(group.findall(f"{SVG}circle")) for group in groups), 3)
        with self.assertRaisesRegex(ValueError, "no vertex is called zoe"):
            written([self.drawn], "svg", Look(marked=["zoe"]))
        (figure,) = pigale.draw([pigale.prism(4)], "convex")
        root = ElementTree.fromstring(pigale.picture(figure, style="dual"))
        lines = list(root.iter(f"{SVG}polyline"))
        # over each of the twelve edges, of which four are those of the outer face
        self.assertEqual(len(lines), 12)
        self.assertIn("pigale-odd", tikz(figure, style="dual"))

    def test_witnesses_with_one_crossing(self):
        source = random.Random(8)
        graphs = [(8, source.sample([(u, v) for v in range(1, 9) for u in range(1, v)], 20)) for _ in range(12)]
        for witness in pigale.embed(["D~{", "EFz_", "IheA@GUAo"] + [pigale.write_graph6(graph) for graph in graphs]):
            if not isinstance(witness, pigale.WitnessFigure):
                continue
            drawing = one_crossing(witness)
            edges = pigale.witness_graph(witness)[1]
            self.assertEqual(set(drawing.places), {v for edge in edges for v in edge})
            self.assertTrue(set(drawing.crossed) <= set(edges))
            places = {**drawing.places, "crossing": drawing.at}
            halves = [(end, "crossing") for edge in drawing.crossed for end in edge]
            self.assertTrue(pigale.check(places, [edge for edge in edges if edge not in drawing.crossed] + halves))
            root = ElementTree.fromstring(pigale.picture(witness, style="crossing"))
            self.assertEqual(len(list(root.iter(f"{SVG}line"))), len(edges) + 2)
            self.assertEqual(len(list(root.iter(f"{SVG}circle"))), len(drawing.places))
            self.assertEqual(tikz(witness, style="crossing").count("draw["), len(edges))

    def test_tikz(self):
        self.assertEqual(escaped("a_b & 5% of {x} \\ ~^#$"), r"a\_b \& 5\% of \{x\} \textbackslash{} \textasciitilde{}\textasciicircum{}\#\$")
        figures = [*pigale.draw([pigale.prism(4)], "convex"), *pigale.draw([pigale.prism(4)], "bars"), *pigale.draw([pigale.quadrangle(3, 3)], "rect"), *pigale.embed(["D~{", "EFz_"])]
        pictures = [tikz(figure, style="faces,equilateral") for figure in figures] + [tikz(self.drawn.figure, ["a_b", "50%", "c & d", "Ö"])]
        document = tikz_document(pictures)
        self.assertEqual(document.count(r"\begin{tikzpicture}"), 6)
        if not shutil.which("pdflatex"):
            self.skipTest("pdflatex is not there")
        with tempfile.TemporaryDirectory() as folder:
            with open(os.path.join(folder, "figures.tex"), "w", encoding="utf-8") as file:
                file.write(document)
            done = subprocess.run(["pdflatex", "-interaction=nonstopmode", "-halt-on-error", "figures.tex"], cwd=folder, stdout=subprocess.PIPE, check=False)
            self.assertEqual(done.returncode, 0, done.stdout.decode(errors="replace")[-2000:])

    def test_pdf_and_png(self):
        if not shutil.which("rsvg-convert"):
            self.skipTest("rsvg-convert is not there")
        self.assertTrue(written([self.drawn], "pdf", Look()).startswith(b"%PDF"))
        self.assertTrue(written([self.drawn], "png", Look()).startswith(b"\x89PNG"))

    def test_nothing_makes_a_pdf(self):
        with unittest.mock.patch("shutil.which", return_value=None), unittest.mock.patch("importlib.import_module", side_effect=ImportError):
            with self.assertRaisesRegex(ValueError, "cairosvg, rsvg-convert or inkscape, and none of them is there"):
                written([self.drawn], "pdf", Look())


class Commands(unittest.TestCase):
    def setUp(self):
        self.folder = tempfile.mkdtemp()
        self.addCleanup(shutil.rmtree, self.folder)

    def path(self, name, data=b""):
        path = os.path.join(self.folder, name)
        if data:
            with open(path, "wb") as file:
                file.write(data)
        return path

    def test_draw(self):
        friends = self.path("friends.edges", FRIENDS.encode())
        for form in ("svg", "tex", "json", "graphml", "csv"):
            self.assertEqual(command("draw", friends, "-o", self.path(f"out.{form}")), (0, b"", ""))
            status, out, _ = command("draw", friends, "--to", form)
            with open(self.path(f"out.{form}"), "rb") as file:
                self.assertEqual((status, out), (0, file.read()))
        status, out, said = command("draw", data=FRIENDS.encode())
        self.assertEqual((status, said), (0, ""))
        ElementTree.fromstring(out)
        k5 = "".join(f"{a} {b}\n" for a in "abcde" for b in "abcde" if a < b).encode()
        status, out, said = command("draw", "--to", "json", "-", data=k5)
        self.assertEqual((status, json.loads(out)["witness"]["kind"]), (1, "K5"))
        self.assertIn("not planar: it has a subdivision of K5 with the branch vertices a, b, c, d, e", said)
        self.assertEqual(command("draw", friends, "--method", "convex", "--to", "csv")[:2], (1, b""))

    def test_several_drawings(self):
        maps = self.path("maps.plc", pigale.write_planar_code([pigale.prism(3), pigale.wheel(6)]))
        self.assertEqual(command("draw", maps, "-o", self.path("out.svg"))[0], 0)
        self.assertEqual(sorted(name for name in os.listdir(self.folder) if name.endswith(".svg")), ["out-1.svg", "out-2.svg"])
        status, _, said = command("draw", maps)
        self.assertEqual((status, "-o OUT.svg makes OUT-1.svg" in said), (3, True))
        status, out, _ = command("draw", maps, "--to", "txt", "--method", "shift")
        self.assertEqual((status, len(pigale.read_figures(out))), (0, 2))

    def test_slips(self):
        for words, data, status, sentence in (
                (("draw", "-o", "x.bmp"), FRIENDS.encode(), 3, "the ending says no form"), (("draw", "none.edges"), b"", 3, "No such file"), (("draw", self.folder), b"", 3, "Is a directory"),
                (("draw",), b"", 3, "there is nothing"), (("draw", "--outer", "zoe"), FRIENDS.encode(), 3, "no vertex is called zoe"), (("draw",), b"<svg/>", 3, "a picture or a page"),
                (("draw", "--style", "rund"), FRIENDS.encode(), 3, "rund is no style"), (("draw", "--method", "tute"), b"", 2, "invalid choice"),
                (("make", "grid", "3"), b"", 3, "grid takes 2 numbers: ROWS COLUMNS"), (("make", "wheel", "2"), b"", 3, "wheel begins at 4"), (("make", "ring", "3"), b"", 2, "invalid choice"),
                (("all", "count"), FRIENDS.encode(), 3, "this looks like a list of edges; draw reads it"), (("all", "embed"), b":An\n", 3, "this looks like sparse6; nauty's copyg -g makes graph6"),
                (("recode",), b"C~\n", 3, "this looks like graph6"), (("picture",), b"C~\n", 3, "this looks like graph6"), (("check", self.path("a.json", FRIENDS.encode())), b"", 3, "a list of edges")):
            found, _, said = command(*words, data=data)
            self.assertEqual(found, status, (words, said))
            self.assertIn(sentence, said)
            self.assertNotIn("Traceback", said)

    def test_table_of_counts(self):
        maps = [pigale.prism(3)] * 3 + [pigale.wheel(6), pigale.complete(5), [[2], []]]
        for words in (("count", "--table"), ("--table", "count")):
            status, out, said = command(*words, data=pigale.write_planar_code(maps))
            self.assertEqual((status, said), (1, ""))
            self.assertEqual([line.split() for line in out.decode().split("\n")[:-1]],
                             [["n", "m", "f", "c", "genus", "records"], ["5", "10", "3", "1", "2", "1"], ["6", "9", "5", "1", "0", "3"], ["6", "10", "6", "1", "0", "1"],
                              ["refused", "OneSided", "1"], ["end", "records", "6", "refused", "1"]])
        status, out, said = command("count", "--table", data=b"C~\n")
        self.assertEqual((status, out.decode().split("\n")[-2], "graph6" in said), (3, "stop EndInRecord 0", True))

    def test_tables_of_other_jobs(self):
        maps = pigale.write_planar_code([pigale.prism(3), pigale.path(4), pigale.wheel(5), [[2], []], pigale.cycle(3), pigale.path(5)])
        figures = "".join(f"{figure}\n" for figure in [*pigale.draw([pigale.prism(3)] * 2, "shift"), pigale.GridFigure(1, "shift", [(0, 0), (0, 0)], [[], []])])
        for words, data, status, lines in (
                (("convex", "--table"), maps, 1, ["drawn 2", "refused CutVertex 2", "refused OneSided 1", "refused Small 1", "end records 6 refused 4"]),
                (("--table", "bars"), maps, 1, ["drawn 3", "refused CutVertex 2", "refused OneSided 1", "end records 6 refused 3"]),
                (("embed", "--table"), b"C~\nD~{\nA_\nEFz_\nDhc\n", 1, ["planar 2", "K33 1", "K5 1", "refused Small 1", "end records 5 refused 1"]),
                (("verify", "--table"), figures.encode(), 1, ["yes 2", "SamePlace 1", "end records 3 refused 1"]),
                (("embed", "--table"), b"", 0, ["end records 0 refused 0"])):
            found, out, said = command(*words, data=data)
            self.assertEqual((found, out.decode().split("\n")[:-1], said), (status, lines, ""), words)

    def test_dictionaries(self):
        figures = [*pigale.draw([pigale.prism(3)], "convex"), *pigale.draw([pigale.prism(3)], "bars"), *pigale.embed(["D~{"])]
        for figure in figures:
            found = json.loads(figure.to_json())
            self.assertEqual((found["job"], found["number"]), (figure.job, figure.number))

    def test_make(self):
        for words, lists in ((("stacked", "9", "5"), pigale.stacked(9, 5)), (("grid", "3", "4"), pigale.grid(3, 4)), (("prism", "5"), pigale.prism(5)), (("quadrangle", "2", "3"), pigale.quadrangle(2, 3)),
                             (("triangulation", "9", "7"), pigale.triangulation(9, random.Random(7))), (("tree", "9", "7"), pigale.tree(9, random.Random(7)))):
            status, out, _ = command("make", *words)
            self.assertEqual((status, pigale.read_planar_code(out)), (0, [lists]))


class Door(unittest.TestCase):
    """pip's command `pigale`."""

    def ran(self, *words, data=b"", path=None):
        code = f"import sys; sys.path.insert(0, {HERE!r}); from pigale.cli import main; sys.exit(main())"
        given = {"stdin": open(path, "rb")} if path else {"input": data}
        done = subprocess.run([sys.executable, "-c", code, *words], stdout=subprocess.PIPE, stderr=subprocess.PIPE, check=False, **given)
        if path:
            given["stdin"].close()
        return done.returncode, done.stdout, done.stderr.decode()

    def test_jobs_are_the_program(self):
        examples = os.path.join(TOP, "examples")
        for words, name in ((["count"], "platonic.plc"), (["--form", "svg", "shift"], "platonic.plc"), (["shift", "--form=svg"], "refused.plc"), (["embed"], "graphs.g6"), (["verify"], "house.txt"),
                            (["gen", "--size", "9", "--number", "4"], "house.txt"), (["count"], "graphs.g6"), (["gen"], "house.txt"), (["--", "count"], "platonic.plc")):
            path = os.path.join(examples, name)
            with open(path, "rb") as file:
                done = subprocess.run([pigale.program(), *words], stdin=file, stdout=subprocess.PIPE, check=False)
            self.assertEqual(self.ran(*words, path=path)[:2], (done.returncode, done.stdout), words)

    def test_it_does_not_run_itself(self):
        with unittest.mock.patch.dict(os.environ, PIGALE_HANDED_ON="1"):
            status, out, said = self.ran("count")
        self.assertEqual((status, out, "there is no program pigale" in said), (3, b"", True))

    def test_commands_are_the_package(self):
        self.assertEqual(self.ran("--version")[:2], (0, f"pigale {pigale.__version__}\n".encode()))
        self.assertEqual(self.ran("make", "prism", "3")[:2], (0, pigale.write_planar_code([pigale.prism(3)])))
        self.assertEqual(self.ran("draw", "--to", "csv", data=FRIENDS.encode())[0], 0)
        self.assertEqual(self.ran()[0], 2)

    def test_slips_of_newcomers(self):
        with tempfile.TemporaryDirectory() as folder:
            def file(name, data):
                path = os.path.join(folder, name)
                with open(path, "wb") as made:
                    made.write(data)
                return path

            maps, graphs = pigale.write_planar_code([pigale.prism(3)]), b"C~\nD~{\n"
            edges, two = file("a.edges", FRIENDS.encode()), file("two.plc", maps + maps)
            for words, path, sentence in (
                    (["count"], edges, "this looks like a list of edges; draw reads it"), (["count"], file("maps.plc.gz", gzip.compress(maps)), "this is what gzip packed; all, recode and draw unpack it"),
                    (["embed"], file("crlf.g6", graphs.replace(b"\n", b"\r\n")), "its lines end by two bytes: pigale all embed < FILE mends them"),
                    (["count"], file("a.s6", b":An\n"), "this looks like sparse6"), (["count"], file("le.plc", b">>planar_code le<<" + maps[15:]), "the header names a byte order"),
                    (["count"], two, "several headers"), (["count"], file("a.g6", graphs), "this looks like graph6; embed reads it"), (["embed"], file("b.plc", maps), "this looks like planar_code"),
                    (["verify"], file("a.svg", b"<svg>\n"), "a picture or a page"), (["count"], file("long.plc", maps[:15] + maps[15:] * 800000), "one run reads up to 16 MiB; of any size: pigale all count"),
                    (["count", "shift"], None, "count and shift are two jobs"), (["count", two], None, "a file stands behind <, as in: pigale count < "), ([two], None, "is no job but a file"),
                    ([folder], None, "is no job but a folder"), (["cuont"], None, "'cuont' is no job; count is"), (["schnider"], None, "'schnider' is no job; schnyder is"),
                    (["count", "--form", "svg"], None, "count has no option --form"), (["shift", "--form", "png"], None, "the form is text or svg, not 'png'"), (["shift", "--form"], None, "no value follows --form"),
                    (["gen", "--size", "2", "--number", "1"], None, "gen needs --size from 3 to 4095"), (["shift", "-v"], None, "there is no option '-v'"), (["--form", "svg"], None, "no word names a job"),
                    (["plantri"], None, "'plantri' is no job"), (["gen", "9"], None, "'9' is no option of gen")):
                status, _, said = self.ran(*words, **({"path": path} if path else {}))
                self.assertIn(sentence, said, words)
                self.assertNotEqual(status, 0 if "two.plc" not in str(path) else 9)

    def test_words(self):
        self.assertEqual(blamed(["count", "count"]), "count and count are two jobs; each is a run by itself")
        self.assertEqual(blamed(["shift", "--", "--form"]), "no value follows --form")


def main():
    suite = unittest.defaultTestLoader.loadTestsFromModule(sys.modules["__main__"])
    result = unittest.TextTestRunner(stream=sys.stdout, verbosity=0).run(suite)
    for line in sorted({f"{test.id().rpartition('.')[2]}: {cause}" for test, cause in result.skipped}):
        print(f"left out: {line}")
    failed = len(result.failures) + len(result.errors)
    print(f"{result.testsRun - failed - len(result.skipped)} passed, {failed} failed")
    return 1 if failed else 0


if __name__ == "__main__":
    sys.exit(main())
