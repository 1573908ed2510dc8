"""Tests of the sheet of one graph, driven in Chromium as a reader would: by mouse, by keys, by links and by files."""
import json

from page import encoded

ICOSAHEDRON = "#g6=K%7CfJ%40cXBIK_%5E"
CUBE = "1-2-3-4-1, 5-6-7-8-5, 1-5, 2-6, 3-7, 4-8"
NOT_PLANAR = "ann-bob, ann-eve, ann-kim, dan-bob, dan-eve, dan-kim, joe-bob, joe-eve, joe-zoe, zoe-kim"
SQUARE = ("ab", "bc", "cd", "da")
LINKS = "".join(f'<edge source="{v}" target="{u}"/>' for v, u in SQUARE)
FILES = {
    "edges.txt": "# a square\na b\nb c\nc d\nd a\n",
    "matrix.txt": "0 1 0 1\n1 0 1 0\n0 1 0 1\n1 0 1 0\n",
    "lists.txt": "a: b d\nb: c\nc: d\n",
    "square.s6": ":Cda\n",
    "square.dot": "graph { a -- b -- c -- d -- a }",
    "square.graphml": f"<graphml><graph>{LINKS}</graph></graphml>",
    "square.json": json.dumps({"nodes": [{"id": v} for v in "abcd"], "links": [{"source": v, "target": u} for v, u in SQUARE]}),
}
FACTS = "$('facts').textContent"
OUTSIDE = "page.study.map.faces[0].map((v) => page.study.map.names[v - 1]).sort().join()"
DRAWN = "[...document.querySelectorAll('.view')].every((it) => it.classList.contains('refused') || it.querySelector('svg'))"


def has_calls(page):
    """Says whether the page's module has the calls that a sheet is made of, and those of what is inside besides."""
    return page.run("[hasSheet(), page.calls.has('canonical_order') && page.calls.has('schnyder_wood')]")


def show(page, link):
    """Opens the sheet of a link, and waits until all its pictures are made."""
    page.run(f"[page.study = null, location.hash = '', location.hash = {json.dumps(link)}].length")
    page.wait("page.study")
    page.run("Boolean(drawViews())")
    page.wait(DRAWN)


def type_text(page, text):
    """Types a text into the box, and waits until it is answered."""
    page.run("[page.study = null, $('typed').textContent = '', $('input').open = true].length")
    page.run(f"[$('paste').value = {json.dumps(text)}, $('paste').oninput()].length")
    page.wait("page.study || $('typed').textContent")
    page.run("Boolean(page.study && drawViews())")


def place_of(page, view, script):
    """Returns where in the window stands what a script finds in a view's picture; `scene` and `map` are its own."""
    return page.run(f"""(() => {{
        const card = cardOf("{view}");
        card.scrollIntoView({{ block: "center" }});
        const {{ scene }} = card;
        const {{ map }} = page.study;
        const box = card.querySelector("svg").getBoundingClientRect();
        const unit = Math.max(card.size.width / box.width, card.size.height / box.height);
        const [x, y] = {script};
        const [left, top] = [(box.width - card.size.width / unit) / 2, (box.height - card.size.height / unit) / 2];
        return [box.left + left + x / unit, box.top + top + y / unit];
    }})()""")


def middle_of(face):
    """Returns a script that finds the middle of a face."""
    walk = f"map.faces[{face}]"
    return f"[0, 1].map((k) => {walk}.reduce((sum, v) => sum + scene.spots[v - 1][k], 0) / {walk}.length)"


def is_true(page, what, script):
    """Raises AssertionError where a script's value is not true."""
    if not page.run(f"Boolean({script})"):
        raise AssertionError(f"not so: {what}")


def test_link(page):
    """A link opens a graph with its vertex, its step and its view in front, and what is shown is in the address."""
    show(page, ICOSAHEDRON + "&show=schnyder&at=8&step=3&look=wood")
    is_true(page, "the facts", f"{FACTS}.startsWith('12 vertices, 30 edges, 20 faces; planar; three-connected')")
    is_true(page, "six views", "document.querySelectorAll('.view').length === 6")
    is_true(page, "one is in front", "document.querySelector('.view.front').dataset.view === 'schnyder'")
    is_true(page, "the vertex is told", "$('told').textContent.startsWith('Vertex 8: 5 neighbours')")
    is_true(page, "the counts are told", "/regions have/.test(cardOf('schnyder').querySelector('.said').textContent)")
    for word in ("show=schnyder", "at=8", "step=3", "look=wood"):
        is_true(page, f"the address has {word}", f"location.hash.includes('{word}')")
    is_true(page, "judged", "cardOf('round').querySelector('.said').textContent === 'judged: yes'")


def test_faces(page):
    """A click on a face puts it outside, in all views, and the buttons put the longest or the given one there."""
    show(page, ICOSAHEDRON)
    wanted = page.run(OUTSIDE.replace("faces[0]", "faces[7]"))
    page.click(*place_of(page, "round", middle_of(7)))
    is_true(page, "the face lies outside", f"{OUTSIDE} === '{wanted}'")
    is_true(page, "the link says so", "location.hash.includes('out=')")
    page.run("$('given').click()")
    is_true(page, "the given face is back", "!location.hash.includes('out=')")
    page.run("[$('outer').value = 3, $('outer').onchange({ target: $('outer') })].length")
    is_true(page, "a face is chosen from the list", "location.hash.includes('out=')")


def test_pointer(page):
    """What is under the pointer lights up in all views, and is told."""
    show(page, ICOSAHEDRON)
    page.mouse("mouseMoved", *place_of(page, "round", "scene.spots[4]"))
    is_true(page, "the vertex is told", "$('told').textContent.startsWith('Vertex')")
    lines = "[...document.querySelectorAll('g.mark')].map((it) => it.querySelectorAll('line').length)"
    is_true(page, "it is marked in each view", f"{lines}.every((count) => count === 5)")
    page.mouse("mouseMoved", *place_of(page, "round", middle_of(9)))
    is_true(page, "the face is told", "$('told').textContent.startsWith('Face of 3')")


def test_drag(page):
    """A vertex that is dragged is judged at each move, the first fault is named, and the moves can be undone."""
    show(page, ICOSAHEDRON)
    inner = "page.study.map.names.findIndex((_, k) => !page.study.map.faces[0].includes(k + 1))"
    x, y = place_of(page, "round", f"scene.spots[{inner}]")
    page.mouse("mouseMoved", x, y)
    page.mouse("mousePressed", x, y)
    for step in (20, 60, 110, 150):
        page.mouse("mouseMoved", x + step, y - step / 2)
    is_true(page, "judged no", "/^judged: no, /.test(cardOf('round').querySelector('.said').textContent)")
    page.mouse("mouseReleased", x + 150, y - 75)
    page.run("$('back-round').click()")
    is_true(page, "judged yes again", "cardOf('round').querySelector('.said').textContent === 'judged: yes'")


def test_steps(page):
    """The slider goes from the base to the whole drawing, and a step says what comes and what moves."""
    show(page, ICOSAHEDRON + "&show=shift")
    for value, words in ((0, "the base"), (5, "comes over")):
        page.run(f"[$('step').value = {value}, $('step').oninput()].length")
        is_true(page, words, f"cardOf('shift').querySelector('.said').textContent.includes('{words}')")
    page.run("[$('step').value = $('step').max, $('step').oninput()].length")
    is_true(page, "the whole grid", "cardOf('shift').querySelector('.said').textContent === '20 by 10'")
    page.run("[...cardOf('shift').querySelectorAll('.controls button')].find((it) => it.textContent === 'Play').click()")
    page.wait("page.study.step >= 2", 10)


def test_typing(page):
    """What is typed is drawn, a graph that is not planar by its witness, and what is no graph is named with its place."""
    type_text(page, CUBE)
    is_true(page, "the cube", "$('facts').textContent.startsWith('8 vertices, 12 edges, 6 faces')")
    type_text(page, NOT_PLANAR)
    is_true(page, "the witness", f"/not planar: it contains a subdivision of K3,3, by the paths .*ann/.test({FACTS})")
    is_true(page, "its names", "document.querySelector('.view svg').textContent.includes('zoe')")
    page.run("$('loose').querySelector('button').click()")
    is_true(page, "planar without an edge", "$('facts').textContent.includes('; planar;')")
    type_text(page, "a--\nb--c")
    is_true(page, "no graph", "$('typed').textContent.startsWith('Line 1: ')")


def test_keys(page):
    """Keys alone go over vertices and faces, and put a face outside."""
    show(page, ICOSAHEDRON)
    page.run("cardOf('round').querySelector('.pane').focus()")
    page.press("ArrowRight")
    is_true(page, "the first vertex", "page.study.focus.v === 1")
    page.press("ArrowRight")
    is_true(page, "the second vertex", "page.study.focus.v === 2 && $('told').textContent.startsWith('Vertex')")
    page.press("Escape")
    is_true(page, "none", "!page.study.focus")
    page.run("[page.study.face = 4, walkBy(page.study, { key: 'Enter' })].length")
    is_true(page, "a face outside", "location.hash.includes('out=')")


def test_graph_files(page):
    """Each format of graphs is read from a file, with its names."""
    for name, text in FILES.items():
        page.run("[page.study = null].length")
        page.run(f"Boolean(takeFiles([new File([fromBase64('{encoded(text.encode())}')], '{name}')]))")
        page.wait("page.study || $('fault').textContent")
        is_true(page, f"{name} is a square", f"page.study && {FACTS}.startsWith('4 vertices, 4 edges, 2 faces')")


def test_records(page):
    """A record opens to its sheet, printing makes all its pictures, and the way back leads to the records."""
    page.run("page.job = {}, document.querySelector('#examples button').click()")
    page.wait("page.answers && !page.isRunning && document.querySelector('.shot svg')")
    page.run("document.querySelector('.shot').click()")
    is_true(page, "the sheet", "page.study && !$('one').hidden && $('found').hidden")
    page.run("document.querySelectorAll('.view').forEach((it) => viewWatcher.unobserve(it))")
    page.ask("Page.printToPDF")
    is_true(page, "all pictures", DRAWN)
    page.run("$('records-back').click()")
    is_true(page, "the sheet is closed", "$('one').hidden && !$('found').hidden")
    is_true(page, "the records", "document.querySelectorAll('.record').length === 3")


def test_saving(page):
    """A view is saved as PNG of the side that is asked for."""
    show(page, ICOSAHEDRON)
    size = page.run("""(async () => {
        const made = viewOf(page.study, "round", { ...page.look, side: 300, paint: plain });
        const png = await pngOf(svgDocument(made), made);
        const bits = await createImageBitmap(png);
        return [bits.width, bits.height, Math.max(made.width, made.height)];
    })()""")
    if size[2] != 300 or max(size[:2]) != 600:
        raise AssertionError(f"the picture has {size}")


# what needs neither a mouse nor keys
PLAIN = (test_link, test_steps, test_typing, test_graph_files, test_saving)
# what needs the orders and trees of the methods
INNER = (test_link, test_steps)
TESTS = (*PLAIN, test_faces, test_pointer, test_drag, test_keys, test_records)


def test_sheet(page, tests=TESTS, browser="Chromium"):
    """Runs tests of the sheet, and returns how many fail."""
    has_sheet, has_inner = has_calls(page)
    if not has_sheet:
        print("web: the sheet of one graph: skipped, since the module has no typed calls")
        return 0
    if not has_inner:
        print("web: the methods at work: skipped, since the module has no orders and trees")
        tests = [it for it in tests if it not in INNER]
    failed = 0
    for test in tests:
        try:
            test(page)
        except (AssertionError, RuntimeError) as fault:
            failed += 1
            print(f"web: {test.__name__}: {fault}")
    print(f"web: the sheet of one graph: {len(tests)} tests in {browser}, {failed} fail")
    return failed

