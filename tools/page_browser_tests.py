"""Tests of the page web/pigale.html as a whole, driven in Chromium and held to the program."""
import gzip
import json
import os
import random
import tempfile

from page import PAGE, ROOT, bytes_of, encoded, text_of
from page_tests import asked_of, differ, given_runs
from runs import answer
import chromium
import firefox
import page_sheet_tests
import pigale

START = 300  # seconds for which the page may start, as on a machine that has much to do
SHOWN = "page.answers && !page.isRunning && !$('found').hidden"


def opened():
    """Returns the page in Chromium, or None where that does not start."""
    try:
        return chromium.Page(f"file://{PAGE}") if chromium.found() else None
    except (OSError, EOFError, StopIteration):
        return None


def in_firefox(program):
    """Compares what the page answers in Firefox with the program, and drives the sheet there.

    Returns how many fail, or None where Firefox does not start."""
    try:
        browser = firefox.Page(f"file://{PAGE}") if firefox.found() else None
    except (OSError, EOFError):
        browser = None
    if not browser:
        return None
    with browser as page:
        page.wait("document.body && document.body.dataset.ready", START)
        runs, wanted = given_runs(program)
        failed = differ("the page in Firefox", runs, wanted, page.run(all_answers(runs)))
        return failed + page_sheet_tests.test_sheet(page, page_sheet_tests.PLAIN, "Firefox")


def all_answers(runs):
    """Returns a script whose value is what the page answers to each run."""
    each = f"for (const run of {asked_of(runs)}) all.push(await answered(...run));"
    return f"(async () => {{ const all = []; {each} return all; }})()"


def test_page(page, program):
    """Drives the page, and returns how many of its answers are wrong."""
    page.wait("document.body && document.body.dataset.ready", START)
    runs, wanted = given_runs(program)
    failed = differ("the page in Chromium", runs, wanted, page.run(all_answers(runs)))
    failed += compare_inputs(page, program)
    for test in (test_examples, test_files, test_printing, test_memory):
        try:
            test(page)
        except (AssertionError, RuntimeError) as fault:
            failed += 1
            print(f"web: {test.__name__}: {fault}")
    failed += page_sheet_tests.test_sheet(page)
    return failed + look_for_requests(page) + look_for_faults(page)


def long_inputs():
    """Yields inputs that the page answers in several parts: a name, the job, what the page is given, what the program is."""
    source = random.Random(7)
    maps = [pigale.triangulation(source.randrange(4, 60), source) for _ in range(1500)]
    maps += [pigale.tree(source.randrange(3, 40), source) for _ in range(300)] + [[[2], []]] * 20 + [pigale.grid(12, 25)]
    source.shuffle(maps)
    code = pigale.write_planar_code(maps)
    for job in ("count", "schnyder", "bars", "rect"):
        yield f"{len(maps)} maps", job, code, code
    yield "maps without a header", "shift", code[15:], code[15:]
    yield "maps, cut off", "convex", code[:-30], code[:-30]
    yield "maps, with a bad count behind", "count", code + bytes(3), code + bytes(3)
    packed_ = gzip.compress(code)
    yield "maps, packed", "schnyder", packed_, code
    wide = [pigale.triangulation(source.randrange(256, 400), source) for _ in range(120)]
    plain = pigale.write_planar_code(wide)
    yield "wide maps, lesser byte first", "schnyder", swapped(plain), plain
    lines = [pigale.write_graph6((n, [(u, v) for v in range(2, n + 1) for u in range(1, v) if source.random() < 2.5 / n]))
             for n in (source.randrange(3, 60) for _ in range(1500))]
    text = "".join(line + "\n" for line in lines).encode()
    yield "graphs", "embed", text, text
    yield "graphs with a header", "embed", b">>graph6<<\n" + text, b">>graph6<<\n" + text
    yield "graphs, with a bad line behind", "embed", text + b"C~~\n", text + b"C~~\n"
    yield "graphs with carriage returns", "embed", text.replace(b"\n", b"\r\n"), text
    for job in ("shift", "bars"):
        figures = pigale.run(job, [it for it in maps if it != [[2], []]][:600]).text
        figures = figures if isinstance(figures, bytes) else figures.encode()
        yield f"figures of {job}", "verify", figures, figures
    figures += b"figure 1 shift 3\n1 at 0 0 2\n"
    yield "figures, with a bad line behind", "verify", figures, figures


def swapped(code):
    """Returns wide planar_code with the lesser byte of each number first, and a header that says so."""
    found, at = bytearray(b">>planar_code le<<"), 15
    while at < len(code):
        end = at + 3
        for _ in range(int.from_bytes(code[at + 1:at + 3], "big")):
            while code[end:end + 2] != b"\0\0":
                end += 2
            end += 2
        found.append(0)
        for k in range(at + 1, end, 2):
            found += bytes((code[k + 1], code[k]))
        at = end
    return bytes(found)


def mended_inputs():
    """Yields the inputs of examples/mended.json as those of `long_inputs`, with the last line that they have, if one."""
    for case in json.loads(text_of(f"{ROOT}/examples/mended.json")):
        given, plain = (case[word].encode("latin-1") for word in ("given", "read"))
        yield case["name"], case["job"], gzip.compress(given) if case.get("gzip") else given, plain, case.get("stop")


def compare_inputs(page, program):
    """Has the page answer inputs, given as files, and returns how many of its texts are others than the program's."""
    wrong = count = 0
    kinds = {"embed": "graphs", "verify": "figures"}
    with tempfile.TemporaryDirectory() as room:
        for name, job, given, plain, *stop in [*long_inputs(), *mended_inputs()]:
            path = f"{room}/{count}"
            with open(path, "wb") as file:
                file.write(given)
            page.give("#file", path)
            is_taken = f"page.input && page.input.name === {json.dumps(os.path.basename(path))}"
            page.wait(f"{is_taken} && (!$('fault').hidden && $('jobs').hidden || page.inputs && {SHOWN})")
            if stop and page.run("$('jobs').hidden || page.kind") != kinds.get(job, "maps"):
                read_as = kinds.get(job, "maps be")
                page.run(f"$('format').value = '{read_as}', $('format').onchange()")
                page.wait(SHOWN)
            if page.run("document.querySelector('[name=job]:checked').value") != job:
                page.run(f"document.querySelector('[name=job][value={job}]').click()")
            page.wait(f"page.answers.jobs.join() === '{job}' && !page.isRunning")
            count += 1
            parts = page.run("page.answers.parts.length")
            wanted = answer(program, (job,), plain)[1]
            if stop and stop[0]:
                wanted = wanted[:wanted.rfind(b"\n", 0, -1) + 1] + stop[0].encode() + b"\n"
            if page.run(f"page.answers.pieces('{job}').join('')").encode() != wanted:
                wrong += 1
                print(f"web: the page answers otherwise than the program: {job} on {name}, in {parts} parts")
    print(f"web: the page in Chromium: {count} inputs given as files, compared with the program, {wrong} differ")
    return wrong


def assert_is(found, wanted):
    """Raises AssertionError where two values differ."""
    if found != wanted:
        raise AssertionError(f"{found!r} in place of {wanted!r}"[:600])


def give(page, *files):
    """Gives the page files, each a name and its bytes, and waits until it has answered."""
    page.run("page.answers = null")
    asked = json.dumps([[name, encoded(data)] for name, data in files])
    page.run(f"takeFiles({asked}.map(([name, data]) => new File([fromBase64(data)], name)))")
    page.wait("!page.isRunning && (page.answers || $('fault').textContent)")


def test_files(page):
    """Files of one kind are read one behind another, and others are named as left out."""
    maps, graphs = bytes_of(f"{ROOT}/examples/platonic.plc"), b"C~\n"
    give(page, ("one.plc", maps), ("two.plc.gz", gzip.compress(maps[15:])), ("three.g6", graphs))
    assert_is(page.run("page.answers.records"), 6)
    assert_is(page.run("$('source').textContent.includes('three.g6 is left out')"), True)
    give(page, ("one.plc", maps), ("two.plc", maps[:-5]))
    assert_is(page.run("page.answers.records"), 5)
    assert_is(page.run("$('fault').textContent.startsWith('In two.plc: The input ends inside the record')"), True)
    give(page, ("one.g6", b">>graph6<<C~"), ("two.g6", b"D~{\n"))
    assert_is(page.run("page.answers.pieces('embed').join('').split('\\n').slice(-2)[0]"), "end records 2 refused 0")
    give(page, ("many.s6", b":Cda\n:BcN\n"))
    assert_is(page.run("[page.kind, page.answers.records]"), ["graphs", 2])
    assert_is(page.run("$('source').textContent.includes('turned from sparse6')"), True)
    give(page, ("two.dot", b"graph { a -- b }\ngraph { c -- d }"))
    assert_is(page.run("$('fault').textContent.includes('Line 2: another graph follows') && $('input').open"), True)
    give(page, ("one.txt", b"no format"), ("two.txt", b""))
    assert_is(page.run("$('fault').textContent.includes('two.txt: It is empty.')"), True)


def test_examples(page):
    """Each example is answered, by each job that its input has."""
    for k in range(page.run("document.querySelectorAll('#examples button').length")):
        label = page.run(f"document.querySelectorAll('#examples button')[{k}].textContent")
        page.run("page.answers = page.study = null; $('fault').textContent = ''")
        page.run(f"document.querySelectorAll('#examples button')[{k}].click()")
        page.wait("page.study || !page.isRunning && (page.answers || $('fault').textContent)")
        if page.run("Boolean(page.study) || !hasSheet() && Boolean($('fault').textContent)"):
            continue
        for job in page.run("[...document.querySelectorAll('[name=job]')].map((it) => it.value)"):
            page.run(f"document.querySelector('[name=job][value={job}]').click()")
            page.wait("!page.isRunning && page.answers")
            if not page.run("page.answers.records && document.querySelectorAll('.record').length"):
                raise AssertionError(f"{label} has no records by {job}")


def test_printing(page):
    """All pictures are made when the page is printed."""
    give(page, ("many.plc", bytes_of(f"{ROOT}/examples/platonic.plc") * 4))
    page.run("scrollTo(0, 0)")
    page.ask("Page.printToPDF")
    assert_is(page.run("[...document.querySelectorAll('.shot')].filter((it) => !it.querySelector('svg')).length"), 0)


def test_memory(page):
    """A refusal of memory and a worker that ends are told in a sentence that stays, and the next file is answered."""
    plain = bytes_of(f"{ROOT}/examples/platonic.plc")
    limited = text_of(f"{ROOT}/web/tests/limited.mjs").replace("export ", "")
    made = "new Machine(limited(page.was.module, 400), page.was.script)"
    page.run(f"(() => {{ {limited} page.was = page.machine; page.machine = {made}; }})()")
    count = 1400
    numbers = range(1, count + 1)
    lists = b"".join(b"".join(u.to_bytes(2, "big") for u in numbers if u != v) + b"\0\0" for v in numbers)
    give(page, ("complete.plc", b">>planar_code<<\0" + count.to_bytes(2, "big") + lists))
    assert_is(page.run("/memory/.test($('fault').textContent)"), True)
    give(page, ("plain.plc", plain))
    assert_is(page.run("[page.answers.records, $('fault').textContent]"), [3, ""])
    page.run("page.machine.worker.onerror({ message: 'ended' })")
    give(page, ("plain.plc", plain))
    assert_is(page.run("page.answers.records"), 3)
    page.run("page.machine = page.was")


def look_for_requests(page):
    """Returns how many requests the page made to a host, and names them."""
    asked = [it["params"]["request"]["url"] for it in page.events if it.get("method") == "Network.requestWillBeSent"]
    hosts = [it for it in asked if not it.startswith(("file:", "blob:", "data:"))]
    for it in hosts:
        print(f"web: the page asks for {it}")
    return len(hosts)


def look_for_faults(page):
    """Returns how many faults the page's scripts had, and names them."""
    faults = [it for it in page.events if it.get("method") == "Runtime.exceptionThrown"]
    for it in faults:
        fault = it["params"]["exceptionDetails"]
        print(f"web: a script fails: {fault.get('text')} {fault.get('exception', {}).get('description', '')[:300]}")
    return len(faults)
