#!/usr/bin/env python3
"""Makes docs/gallery.md, and in docs/gallery/ the graphs, maps and pictures that it shows.

  python3 docs/gallery/draw.py

Each picture is the figure that its command writes, shown by the package pigale, which also finds the program. Without
networkx, which reads GraphML, the pictures of it and the page are left as they are.
"""
import importlib.util
import json
import os
import random
import sys

HERE = os.path.dirname(os.path.abspath(__file__))
sys.path.insert(0, os.path.join(HERE, "..", "..", "python"))
import pigale  # noqa: E402

# In graph6: Tutte's cubic graph of 46 vertices, which has no Hamiltonian cycle, and Petersen's graph.
TUTTE = ("msOGGC@?H?c??@??_GG?A??C??G_?G_????@???G??__??A???@????g???GC??G????CC???G????G???AC??_????_??G?????_A???@???A"
         "?????G??_?????G??G??@A???G_??_???c??W???O???O??C_??B???_????aO??")
PETERSEN = "IheA@GUAo"

HEAD = """# Gallery

Twenty-one figures, each with the command that makes it, run from the top of the repository. `draw` reads a graph of any usual format with its names and draws it round, where the program judges what floats propose to be plane; or it shows the witness that it has no drawing. In the other commands the last part, `picture`, turns the text of a figure into a picture with numbers at the vertices; the program's own pictures, by `--form svg`, have none. `--style equilateral` gives the triangle of a drawing three like sides, by an affine map, which keeps edges straight, faces convex and crossings away. `--style faces` fills each face by its length. `docs/gallery/draw.py` makes the maps, the pictures and this page. That a figure is what its job promises is proved, and that a round drawing is plane is what the proved program says of it; that a picture shows the figure is not.
"""


def by_embedding(graph):
    """A map of a graph that has one: that in which `embed` draws it."""
    return pigale.embed([graph])[0].lists


def goldner_harary():
    """Two tetrahedra on one triangle, and a vertex put into each of their six outer faces."""
    ring, tops = [(1, 2), (2, 3), (1, 3)], (4, 5)
    edges = ring + [(v, top) for top in tops for v in (1, 2, 3)]
    faces = [(u, v, top) for top in tops for u, v in ring]
    return by_embedding((11, edges + [(v, k) for k, face in enumerate(faces, 6) for v in face]))


def tutte():
    """Tutte's graph with one of its faces of ten vertices outside."""
    lists = by_embedding(TUTTE)
    face = max(pigale.faces_of(lists), key=len)
    return pigale.outside(lists, *face[:2])


def platonic(number):
    with open(os.path.join(HERE, "..", "..", "examples", "platonic.plc"), "rb") as file:
        return pigale.read_planar_code(file)[number]


def truncated(lists):
    """The map with each vertex cut off: a vertex for each dart, joined to that back and to those beside it."""
    darts = [(v, u) for v, us in enumerate(lists, 1) for u in us]
    number = {dart: k for k, dart in enumerate(darts, 1)}

    def beside(v, u, step):
        us = lists[v - 1]
        return number[v, us[(us.index(u) + step) % len(us)]]

    return [[number[u, v], beside(v, u, 1), beside(v, u, -1)] for v, u in darts]


def buckminster():
    """The fullerene of 60 vertices in which no two pentagons touch, with a pentagon outside."""
    lists = truncated(platonic(1))
    face = min(pigale.faces_of(lists), key=len)
    return pigale.outside(lists, *face[:2])


def rectangles():
    """A grid of seven by eight vertices in a quadrangle, each cell with one diagonal or the other."""
    source = random.Random(5)
    rising = {(i, j): source.random() < 0.5 for i in range(6) for j in range(7)}
    return pigale.quadrangle(7, 8, lambda i, j: rising[i, j])


def halin():
    """A tree without vertices of degree two, and a cycle through its leaves."""
    source, parents, leaves = random.Random(4), {}, [1]
    while len(parents) < 25:
        v = leaves.pop(source.randrange(len(leaves)))
        children = [len(parents) + 2 + k for k in range(3 if v == 1 else source.choice((2, 3)))]
        parents.update(dict.fromkeys(children, v))
        leaves += children

    def below(v):
        children = [u for u, w in parents.items() if w == v]
        return [leaf for u in children for leaf in below(u)] if children else [v]

    ring = below(1)
    return [*((v, u) for u, v in parents.items()), *zip(ring, ring[1:] + ring[:1])]


def tree():
    """A tree of forty vertices, each joined to one of the last few before it."""
    source = random.Random(7)
    return [(source.randrange(max(1, v // 3), v), v) for v in range(2, 41)]


# The marriages among families of Florence in the fifteenth century, by Padgett and Ansell 1993.
MARRIAGES = """Acciaiuoli-Medici Castellani-Peruzzi Castellani-Strozzi Castellani-Barbadori Medici-Barbadori Medici-Ridolfi Medici-Tornabuoni
Medici-Albizzi Medici-Salviati Salviati-Pazzi Peruzzi-Strozzi Peruzzi-Bischeri Strozzi-Ridolfi Strozzi-Bischeri Ridolfi-Tornabuoni
Tornabuoni-Guadagni Albizzi-Ginori Albizzi-Guadagni Bischeri-Guadagni Guadagni-Lamberteschi"""


def graphml(pairs):
    names = list(dict.fromkeys(name for pair in pairs for name in pair))
    lines = [f'    <node id="{name}"/>' for name in names] + [f'    <edge source="{u}" target="{v}"/>' for u, v in pairs]
    body = "\n".join(lines)
    return f'<?xml version="1.0" encoding="UTF-8"?>\n<graphml xmlns="http://graphml.graphdrawing.org/xmlns">\n  <graph edgedefault="undirected">\n{body}\n  </graph>\n</graphml>\n'


def wells():
    """Three houses and three wells, with a path from each house to each well."""
    houses, wells_ = ["north house", "south house", "mill"], ["old well", "new well", "spring"]
    links = [{"source": house, "target": well} for house in houses for well in wells_]
    return json.dumps({"nodes": [{"id": name} for name in houses + wells_], "links": links}, indent=1) + "\n"


def edge_list(pairs):
    return "".join(f"{u} {v}\n" for u, v in pairs)


GRAPHS = {
    "halin.edges": lambda: edge_list(halin()),
    "tree.edges": lambda: edge_list(tree()),
    "florence.graphml": lambda: graphml([pair.split("-") for pair in MARRIAGES.split()]),
    "wells.json": wells,
}

# The picture's name, its input, its style, the heading and the alternative text.
DRAWN = [
    ("buckminster-round", "buckminster.plc", "faces", "A fullerene of 60 vertices",
     "The truncated icosahedron with a hexagon outside: red pentagons among blue hexagons"),
    ("florence-round", "florence.graphml", "", "Marriages among the families of Florence",
     "A graph of fifteen names, Medici in the midst, drawn without a crossing"),
    ("grid-round", "grid.plc", "faces", "A grid of six by six", "Twenty-five green squares in a circle, bulging like a cushion"),
    ("halin-round", "halin.edges", "faces", "A Halin graph", "A tree whose leaves are joined by a circle round it"),
    ("dodecahedron-round", "dodecahedron.plc", "faces", "The dodecahedron", "Eleven red pentagons within a twelfth"),
    ("tutte-round", "tutte.plc", "faces", "Tutte's graph", "Tutte's graph of 46 vertices in a circle of ten, its faces in colours by their lengths"),
    ("tree-round", "tree.edges", "", "A tree of forty vertices", "Forty dots with lines that branch outwards"),
    ("wells-witness", "wells.json", "", "Three houses and three wells, and no map of their paths",
     "Three red houses above three green wells by name, each joined to each, with crossings"),
    ("wells-crossing", "wells.json", "crossing", "The same with a single crossing",
     "Three houses and three wells in a square, with two paths that cross in colours of their own"),
]

MAPS = {
    "tutte": tutte,
    "dodecahedron": lambda: pigale.dual(platonic(1)),
    "buckminster": buckminster,
    "rectangles": rectangles,
    "grid": lambda: pigale.grid(6, 6),
    "stacked-30": lambda: pigale.stacked(30, 3),
    "stacked-255": lambda: pigale.stacked(255, 1),
    "icosahedron": lambda: platonic(1),
    "goldner-harary": goldner_harary,
}

BOTH, TRIANGLE = "equilateral,faces", "equilateral"

# The picture's name, its job, its input without the ending, its style, the heading and the alternative text.
PICTURES = [
    ("tutte-convex", "convex", "tutte", BOTH, "Tutte's graph with convex faces",
     "Tutte's graph of 46 vertices drawn with straight edges: three like parts stand at the corners of a triangle, round a "
     "face of nine"),
    ("tutte-bars", "bars", "tutte", "", "Tutte's graph as bars that see each other",
     "Tutte's graph as 46 level bars at heights of their own, joined by upright lines"),
    ("dodecahedron-convex", "convex", "dodecahedron", BOTH, "The dodecahedron with convex faces",
     "The dodecahedron in a triangle: eleven pentagons without a bend inwards"),
    ("buckminster-convex", "convex", "buckminster", BOTH, "A fullerene of 60 vertices with convex faces",
     "The truncated icosahedron in a triangle: blue hexagons and red pentagons without a bend inwards"),
    ("rectangles-rect", "rect", "rectangles", "", "Sixty vertices as rectangles",
     "A rectangle tiled by sixty numbered rectangles in four tints"),
    ("goldner-harary-schnyder", "schnyder", "goldner-harary", TRIANGLE, "The graph of Goldner and Harary by Schnyder's method",
     "A triangulation of eleven vertices with straight edges on a grid of nine by nine, made equilateral"),
    ("icosahedron-schnyder", "schnyder", "icosahedron", TRIANGLE, "The icosahedron by Schnyder's method",
     "The icosahedron with straight edges on a grid of ten by ten, made equilateral"),
    ("grid-bars", "bars", "grid", "", "A grid graph as bars",
     "The grid of six by six vertices as 36 level bars, joined by upright lines"),
    ("icosahedron-bars", "bars", "icosahedron", "", "The icosahedron as bars",
     "The icosahedron as twelve level bars, joined by upright lines"),
    ("stacked-30-shift", "shift", "stacked-30", TRIANGLE, "A triangulation of thirty vertices by the shift method",
     "Thirty dots with straight edges in a triangle with three like sides"),
    ("stacked-255-schnyder", "schnyder", "stacked-255", TRIANGLE, "A triangulation of 255 vertices by Schnyder's method",
     "255 small dots and 759 thin straight edges in a triangle, with numbers where there is room"),
    ("petersen-witness", "embed", "petersen", "", "Why Petersen's graph has no drawing without crossings",
     "A subdivision of K3,3 in Petersen's graph: three red and three green vertices, with nine paths between them"),
]


def files():
    """Each file of the gallery, as its path from docs/ on and its bytes."""
    inputs = {f"{name}.plc": pigale.write_planar_code([make()]) for name, make in MAPS.items()}
    inputs["petersen.g6"] = f"{PETERSEN}\n".encode("ascii")
    inputs.update({name: make().encode("utf-8") for name, make in GRAPHS.items()})
    yield from ((f"gallery/{name}", data) for name, data in inputs.items())
    sections = []
    for name, source, style, heading, text in DRAWN:
        option = style and f" --style {style}"
        sections.append(f"\n## {heading}\n\n    ./pigale draw docs/gallery/{source}{option} -o {name}.svg\n\n![{text}](gallery/{name}.svg)\n")
        if not source.endswith(".graphml") or importlib.util.find_spec("networkx"):
            drawn = pigale.draw_named(pigale.graphs_of(inputs[source], f"docs/gallery/{source}"))
            yield f"gallery/{name}.svg", pigale.written(drawn, "svg", pigale.Look(style=style))
    for name, job, source, style, heading, text in PICTURES:
        source = f"{source}.{'g6' if job == 'embed' else 'plc'}"
        (figure,) = pigale.run(job, inputs[source]).answers
        yield f"gallery/{name}.svg", pigale.picture(figure, style=style).encode("ascii")
        option = style and f" --style {style}"
        command = f"./pigale {job} < docs/gallery/{source} | ./pigale picture{option} > {name}.svg"
        sections.append(f"\n## {heading}\n\n    {command}\n\n![{text}](gallery/{name}.svg)\n")
    yield "gallery.md", (HEAD + "".join(sections)).encode("utf-8")


def main():
    for path, data in files():
        with open(os.path.join(HERE, "..", path), "wb") as file:
            file.write(data)


if __name__ == "__main__":
    main()
