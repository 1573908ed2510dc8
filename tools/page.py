"""Makes web/pigale.html: one file, with the program as WebAssembly inside it, the scripts of web/src and the examples."""
import base64
import gzip
import html
import json
import os
import re
import subprocess

ROOT = os.path.dirname(os.path.dirname(os.path.realpath(__file__)))
PAGE = f"{ROOT}/web/pigale.html"
SOURCES = f"{ROOT}/web/src"
STYLE = f"{ROOT}/python/pigale/style.json"
IMPORT = re.compile(r'^import \{([^}]*)\} from "\./([a-z_]+)\.js";\n', re.M)
TOP = re.compile(r"^(?:export )?(?:async )?(?:function\*?|class|const|let) ([\w$]+|\{[^}]*\}|\[[^\]]*\])", re.M)
EXAMPLES = (
    ("Platonic solids", "examples/platonic.plc"),
    ("Tutte’s graph", "docs/gallery/tutte.plc"),
    ("A fullerene", "docs/gallery/buckminster.plc"),
    ("Sixty rectangles", "docs/gallery/rectangles.plc"),
    ("Graphs: K5, Petersen and more", "examples/graphs.g6"),
    ("Houses and wells, by name", "examples/wells.dot"),
    ("A house, judged", "examples/house.txt"),
    ("A crossing, judged", "examples/crossing.txt"),
    ("Witnesses, judged", "examples/witnesses.txt"),
    ("A map on the torus", "examples/genus_one.plc"),
    ("A refused record", "examples/refused.plc"),
)



class Broken(Exception):
    """Says what is wrong with the sources of the page."""


def text_of(path):
    with open(path, encoding="utf-8") as file:
        return file.read()


def packed(data):
    """Returns bytes packed, the same way each time, as lines of base64."""
    text = base64.b64encode(gzip.compress(data, 9, mtime=0)).decode()
    return "\n".join(text[at:at + 120] for at in range(0, len(text), 120))


def bundle(top):
    """Returns the script of a module of web/src with those that it imports, each once and before those that import it.

    All of them share one scope then, so no two may give one name, and none may import a name as another."""
    names, owners, texts = [], {}, []

    def take(name):
        if name in names:
            return
        names.append(name)
        text = text_of(f"{SOURCES}/{name}.js")
        for asked, other in IMPORT.findall(text):
            take(other)
            missing = [it for it in re.findall(r"[^\s,][^,]*", asked) if owners.get(it.strip()) != other]
            if missing:
                raise Broken(f"web/src/{name}.js imports what {other}.js does not give: {', '.join(missing)}")
        plain = IMPORT.sub("", text)
        if re.search(r"^(import|export \{|export default)\b", plain, re.M):
            raise Broken(f"web/src/{name}.js imports or exports in a way that tools/page.py does not know")
        for found in TOP.findall(plain):
            for it in re.findall(r"[\w$]+", found):
                if it in owners:
                    raise Broken(f"web/src/{name}.js and {owners[it]}.js both give the name {it}")
                owners[it] = name
        texts.append(re.sub(r"^export ", "", plain, flags=re.M).strip())

    take(top)
    return "\n\n".join(texts)


def style_module():
    """Returns web/src/style.js, which has the style of pictures for scripts."""
    head = "// Colours and sizes of pictures: what python/pigale/style.json has. tools/web --anew makes this file."
    return f"{head}\n\nexport const STYLE = {text_of(STYLE).strip()};\n"


def samples():
    found = []
    for label, path in EXAMPLES:
        found.append({"label": label, "name": os.path.basename(path), "data": encoded(bytes_of(f"{ROOT}/{path}"))})
    return json.dumps(found)


def colours(look):
    """Returns the variables of both styles, each in a block."""
    rows = {kind: "".join(f"--{name}:{value};" for name, value in look[kind].items()) for kind in ("light", "dark")}
    return f":root{{{rows['light']}}}\n@media (prefers-color-scheme:dark){{:root{{{rows['dark']}}}}}"


def text(program):
    """Returns the text of the page with the bytes of a module."""
    asked = [f"{ROOT}/tools/sources", "pigale_c"]
    sources = subprocess.run(asked, capture_output=True, text=True, check=True).stdout.strip()
    version = re.search(r"^version: *(\S+)", text_of(f"{ROOT}/CITATION.cff"), re.M)
    made = f"Pigale {version.group(1) if version else ''}, of the sources with the sum {sources[:16]}."
    parts = {
        "colours": colours(json.loads(text_of(STYLE))),
        "style": text_of(f"{SOURCES}/page.css").strip(),
        "made": html.escape(made.replace("  ", " ").replace(" ,", ",")),
        "version": html.escape(f"Version {version.group(1)}" if version else ""),
        "worker": bundle("worker"),
        "samples": samples(),
        "module": packed(program),
        "script": bundle("page"),
    }
    return re.sub(r"\{\{(\w+)\}\}", lambda found: parts[found.group(1)], text_of(f"{SOURCES}/page.html"))


def write(program, to):
    """Writes the page with the bytes of a module, and the style for scripts, and says how large it is."""
    with open(f"{SOURCES}/style.js", "w", encoding="utf-8") as file:
        file.write(style_module())
    made = text(program)
    with open(to, "w", encoding="utf-8") as file:
        file.write(made)
    print(f"web: {len(made.encode()):,} bytes, of which the packed module {len(packed(program)):,}")
    return 0


def module():
    """Returns the bytes of the module that the page holds."""
    found = re.search(r'<script type="text/plain" id="module">([^<]*)</script>', text_of(PAGE))
    return gzip.decompress(base64.b64decode(found.group(1)))


def encoded(data):
    return base64.b64encode(data).decode()


def bytes_of(path):
    with open(path, "rb") as file:
        return file.read()
