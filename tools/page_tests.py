"""Tests of the page web/pigale.html: its sources, and its scripts in node, held to the program and the Python package."""
import itertools
import json
import os
import random
import re
import subprocess
import tempfile

from page import PAGE, ROOT, SOURCES, STYLE, bytes_of, encoded, module, text, text_of
from runs import all_runs, answer
import pigale

MOST = 1 << 20  # bytes of an input that the page is given to answer in one piece
MOST_PAGE = 700 * 1024  # bytes of the page
NEAR = 0.11  # pixels by which numbers of two pictures may be apart, as their last digits are rounded
JOBS = {".plc": ("shift", "schnyder", "bars", "convex", "rect"), ".g6": ("embed",)}  # by the ending of a file
NAMES = ["ann", "Bob & co", "x", "Ł", "m1", "山", "<i>", "zo\u0301e"]
EQUILATERAL = {"equilateral": True, "faces": True}

# what is written on what
TEXTS = [("text", "ground"), ("text", "page"), ("soft", "ground"), ("soft", "page"), ("warn", "ground"), ("warn", "page"),
         ("dot", "ground"), ("dot", "page"), ("odd", "ground"), ("on-dot", "dot"), ("number", "ground")]

NODE = """
import fs from 'node:fs';
const { Engine } = await import('file://' + process.argv[1] + '/engine.js');
const [, , runs, module] = process.argv;
const engine = await Engine.of(fs.readFileSync(module));
const answers = JSON.parse(fs.readFileSync(runs, 'utf8')).map(([words, input]) => {
  const { status, text } = engine.answer(words, Buffer.from(input, 'base64'));
  return [status, Buffer.from(text).toString('base64')];
});
process.stdout.write(JSON.stringify(answers));
"""

PICTURES = """
import fs from 'node:fs';
const { pictureDocument } = await import('file://' + process.argv[1] + '/pictures.js');
const { blocksOf, readFigure } = await import('file://' + process.argv[1] + '/figures.js');
const { tikzOf } = await import('file://' + process.argv[1] + '/tikz.js');
const asked = JSON.parse(fs.readFileSync(0, 'utf8'));
const made = asked.map(([text, look, isTex]) => (isTex ? tikzOf : pictureDocument)(readFigure(blocksOf(text)[0]), look));
process.stdout.write(JSON.stringify(made));
"""


ROUNDS = """
import fs from 'node:fs';
const { roundFloats, rounded } = await import('file://' + process.argv[1] + '/round.js');
const asked = JSON.parse(fs.readFileSync(0, 'utf8'));
const made = asked.map(([lists, pull, isFilled, size]) => rounded(roundFloats(lists, pull, isFilled), size));
process.stdout.write(JSON.stringify(made));
"""


READERS = """
import fs from 'node:fs';
const { readGraphText } = await import('file://' + process.argv[1] + '/graphs.js');
const asked = JSON.parse(fs.readFileSync(0, 'utf8')).map((text) => readGraphText(text));
process.stdout.write(JSON.stringify(asked.map(({ names, edges }) => [names, edges])));
"""

# texts of graphs, each with what the package calls its kind
GRAPHS = [
    ("edges", "10 9\n9 2\n"), ("edges", "a b\nb c\nd\n"), ("edges", "c a 2.5\nb c 3.5\n"),
    ("edges", "# none\nx y # one\n"),
    ("matrix", "0 1 1\n1 0 0\n1 0 0\n"), ("matrix", "0110\n1010\n1101\n0010\n"), ("adjacency", "a b c\nb c\nd a\n"),
    ("sparse6", ":Cda\n"), ("graph6", "IheA@GUAo\n"),
    ("json", '{"nodes": [{"id": "z"}, {"id": "a"}], "links": [{"source": "z", "target": "a"}]}'),
]


def script(program, *words, given=None):
    """Returns what a script says in node, which is given the folder of the page's scripts as its first word."""
    asked = ["node", "--input-type=module", "--eval", program, SOURCES, *words]
    ran = subprocess.run(asked, input=given, capture_output=True, text=True, check=True)
    return json.loads(ran.stdout)


def test_sources():
    """Says whether the page is made of the sources that are here: its bytes around the module, and the manifest's sum."""
    faults = []
    if text(module()) != text_of(PAGE):
        faults.append("web/pigale.html is not what tools/web makes of web/src and its module: tools/web --anew")
    wanted = subprocess.run([f"{ROOT}/tools/sources", "--web"], capture_output=True, text=True, check=True).stdout.strip()
    named = re.search(r"^file pigale\.html .*\bscripts (\w+)", text_of(f"{ROOT}/release/MANIFEST"), re.M)
    if not named or named[1] != wanted:
        faults.append("web/src is not what release/MANIFEST names as `scripts`: tools/release makes the page anew")
    if os.path.getsize(PAGE) > MOST_PAGE:
        faults.append(f"web/pigale.html has more than {MOST_PAGE:,} bytes")
    for kind, look in json.loads(text_of(STYLE)).items():
        if kind in ("light", "dark"):
            faults += [f"{one} on {other} has a contrast of {contrast(look[one], look[other]):.2f} in the {kind} style"
                       for one, other in TEXTS if contrast(look[one], look[other]) < 4.5]
    for fault in faults:
        print(f"web: {fault}")
    return len(faults)


def contrast(one, other):
    """Returns the contrast of two colours, as the guidelines for accessible pages have it."""
    def light(colour):
        parts = [int(colour[k:k + 2], 16) / 255 for k in (1, 3, 5)]
        red, green, blue = (it / 12.92 if it <= 0.04045 else ((it + 0.055) / 1.055) ** 2.4 for it in parts)
        return 0.2126 * red + 0.7152 * green + 0.0722 * blue
    low, high = sorted((light(one), light(other)))
    return (high + 0.05) / (low + 0.05)


def test_scripts():
    """Runs the tests of web/tests in node, and returns how many failed."""
    asked = ["node", "--test", "--test-reporter=tap", f"{ROOT}/web/tests"]
    ran = subprocess.run(asked, capture_output=True, text=True, check=False)
    counts = {word: int(count) for word, count in re.findall(r"^# (tests|fail|skipped) (\d+)$", ran.stdout, re.M)}
    for line in re.findall(r"^not ok \d+ - (.*)", ran.stdout, re.M):
        print(f"web: a test of web/tests fails: {line}")
    failed = counts.get("fail", 1) or int(ran.returncode != 0)
    skipped = counts.get("skipped", 0)
    left = f", {skipped} skipped, since the module lacks their calls" if skipped else ""
    print(f"web: web/tests: {counts.get('tests', 0)} tests in node, {failed} fail{left}")
    return failed


def test_module(program):
    """Compares what the page's module answers in node with what the program writes."""
    runs, wanted = given_runs(program)
    with tempfile.TemporaryDirectory() as room:
        with open(f"{room}/runs.json", "w", encoding="utf-8") as file:
            file.write(asked_of(runs))
        with open(f"{room}/module.wasm", "wb") as file:
            file.write(module())
        return differ("the module in node", runs, wanted, script(NODE, f"{room}/runs.json", f"{room}/module.wasm"))


def given_runs(program):
    """Returns the runs that the module can be asked for, and the answers of the program."""
    # the module takes words parted by spaces, so a word that has one is out of its reach; the longest inputs take long
    runs = [(words, given) for words, given in all_runs()
            if len(given) < MOST and not any(" " in word or not word for word in words)]
    return runs, [[status, encoded(text)] for status, text in (answer(program, *run) for run in runs)]


def asked_of(runs):
    return json.dumps([[" ".join(words), encoded(given)] for words, given in runs])


def differ(by, runs, wanted, found):
    """Returns how many answers are others than those wanted, and names them."""
    wrong = [run for run, want, have in zip(runs, wanted, found) if want != have]
    for words, given in wrong[:20]:
        print(f"web: {by} answers otherwise than the program: {' '.join(words)} on {len(given)} bytes")
    print(f"web: {by}: {len(runs)} runs compared with the program, {len(wrong)} differ")
    return len(wrong)


def figures():
    """Yields the figures of all files of the gallery and of examples, each with its file's name and its job."""
    for folder in ("docs/gallery", "examples"):
        for name in sorted(os.listdir(f"{ROOT}/{folder}")):
            for job in JOBS.get(os.path.splitext(name)[1], ()):
                for found in pigale.run(job, bytes_of(f"{ROOT}/{folder}/{name}")).answers:
                    if isinstance(found, pigale.formats.FIGURES):
                        yield name, job, found


def names_of(figure):
    """Returns names for a figure's vertices: short and long ones, of several scripts, with marks that SVG escapes."""
    count = pigale.formats.read_graph6(figure.graph6)[0] if hasattr(figure, "graph6") else len(figure.lists)
    return [NAMES[k % len(NAMES)] + (str(k) if k >= len(NAMES) else "") for k in range(count)]


def test_pictures():
    """Compares the pictures that the page saves with those of the Python package, as SVG and as TikZ, shape by shape."""
    ways = [(pigale.picture, {"style": "equilateral,faces"}, EQUILATERAL, False), (pigale.picture, {}, {}, False)]
    asked = [(*it, *way) for it in figures() for way in ways]
    if hasattr(pigale.pictures, "text_width"):
        from pigale.tikz_pictures import tikz
        for it in figures():
            names = names_of(it[2])
            asked += [(*it, pigale.picture, {"labels": names}, {"names": names}, False),
                      (*it, tikz, {"labels": names}, {"names": names}, True),
                      (*it, tikz, {"style": "equilateral,faces"}, EQUILATERAL, True)]
    given = [[f"{figure}\n", look, is_tex] for _, _, figure, _, _, look, is_tex in asked]
    made = script(PICTURES, given=json.dumps(given))
    wrong = 0
    for (name, job, figure, draw, python, _, is_tex), found in zip(asked, made):
        if not are_near(draw(figure, **python), found, 0.002 if is_tex else NEAR):
            wrong += 1
            how = f"{python or 'plain'}{', TikZ' * is_tex}"
            print(f"web: a picture is another than the package's: {job} of {name}, {how}")
    print(f"web: {len(asked)} pictures compared with the package's, {wrong} differ")
    return wrong


def is_connected(lists):
    """Says whether a map hangs together."""
    seen, front = {1}, [1]
    while front:
        front = [u for u in {u for v in front for u in lists[v - 1]} if u not in seen]
        seen.update(front)
    return len(seen) == len(lists)


def test_rounds():
    """Compares the places of round drawings with those of the Python package: they are the same whole numbers."""
    try:
        from pigale import rounds
    except ImportError:
        print("web: round drawings: skipped, since the Python package has none")
        return 0
    source = random.Random(3)
    maps = {str(it.lists): it.lists for _, job, it in figures() if job == "shift"}.values()
    maps = [it for it in maps if is_connected(it)]
    maps += [pigale.triangulation(n, source) for n in (5, 12, 30, 80)] + [pigale.tree(20, source)]
    asked = list(itertools.product(maps, rounds.PULLS, (False, True), (1000, 1000000)))
    made = script(ROUNDS, given=json.dumps(asked))
    wrong = sum([list(place) for place in rounds.rounded(rounds.round_floats(lists, pull, is_filled), size)] != found
                for (lists, pull, is_filled, size), found in zip(asked, made))
    print(f"web: {len(asked)} round drawings compared with the package's, {wrong} differ")
    return wrong


def test_readers():
    """Compares what the page reads of texts of graphs with what the Python package does: the same names and edges."""
    try:
        from pigale.readers import graphs_of
    except ImportError:
        print("web: texts of graphs: skipped, since the Python package reads none")
        return 0
    made = script(READERS, given=json.dumps([text for _, text in GRAPHS]))
    wrong = 0
    for (kind, text), found in zip(GRAPHS, made):
        graph = graphs_of(text.encode(), "a text", kind)[0]
        if [[str(name) for name in graph.names], sorted(map(list, graph.edges))] != found:
            wrong += 1
            print(f"web: the page reads another graph than the package: {text!r}")
    print(f"web: {len(GRAPHS)} texts of graphs compared with the package's graphs, {wrong} differ")
    return wrong


def are_near(one, other, near):
    """Says whether two pictures have the same words, and numbers that differ by less than `near`."""
    number = r"-?\d+(?:\.\d+)?"
    if re.sub(number, "0", one) != re.sub(number, "0", other):
        return False
    pairs = zip(re.findall(number, one), re.findall(number, other))
    return all(abs(float(p) - float(q)) < near for p, q in pairs)
