"""Says by its first bytes which format an input is of, and in words what reads it."""
import re
from typing import List, Tuple

# each format by the word of --from, what it is called, and what is to be done with it where it is given to another reader
KINDS = {
    "planar_code": ("planar_code", "count, shift, schnyder, bars, convex and rect read it"),
    "graph6": ("graph6", "embed reads it, and nauty's planarg -p makes planar_code of it"),
    "sparse6": ("sparse6", "nauty's copyg -g makes graph6 of it, and draw reads it"),
    "digraph6": ("digraph6 or incremental sparse6", "only undirected graphs are read, as graph6"),
    "ascii": ("plantri's ASCII code", "plantri without -a writes planar_code, and draw reads it"),
    "figures": ("the text of figures", "verify, picture and page verify read it"),
    "picture": ("a picture or a page", "pictures are written, and never read; the text without --form svg is what verify reads"),
    "graphml": ("GraphML", "draw reads it, and check where it has x and y"),
    "gexf": ("GEXF", "draw reads it"),
    "gml": ("GML", "draw reads it"),
    "dot": ("DOT of Graphviz", "draw reads it"),
    "pajek": ("Pajek's format", "draw reads it"),
    "json": ("JSON", "draw reads it as a graph, and check as a drawing"),
    "matrix": ("an adjacency matrix", "draw reads it"),
    "edges": ("a list of edges", "draw reads it"),
    "adjacency": ("an adjacency list", "draw --from adjacency reads it"),
    "gzip": ("what gzip packed", "all, recode and draw unpack it, and so does gunzip -c"),
    "archive": ("an archive or a document", "unpack it first"),
    "empty": ("nothing: it is empty", "a file stands behind <, as in: pigale count < maps.plc"),
    "": ("no format that is known here", "docs/FORMATS.md has those that are read"),
}
# the format of each ending of a file's name
ENDINGS = {"plc": "planar_code", "pl": "planar_code", "planar_code": "planar_code", "g6": "graph6", "graph6": "graph6",
           "s6": "sparse6", "sparse6": "sparse6", "graphml": "graphml", "gexf": "gexf", "gml": "gml", "dot": "dot", "gv": "dot",
           "net": "pajek", "pajek": "pajek", "json": "json", "edges": "edges", "edgelist": "edges", "csv": "edges",
           "adj": "adjacency", "adjlist": "adjacency", "mat": "matrix", "matrix": "matrix"}
HEADER_NAMES = {"planar_code": "planar_code", "graph6": "graph6", "sparse6": "sparse6", "digraph6": "digraph6"}


def ending_kind(name: str) -> str:
    """Returns the format that the ending of a file's name says, also before .gz; nothing where it says none."""
    words = name.lower().rsplit("/", 1)[-1].split(".")
    if len(words) > 1 and words[-1] == "gz":
        words.pop()
    return ENDINGS.get(words[-1], "") if len(words) > 1 else ""


def kind_of(head: bytes) -> str:
    """Returns the format of an input by its first bytes, at best a thousand of them; nothing where it is none known."""
    if not head:
        return "empty"
    for front, kind in ((b"\x1f\x8b", "gzip"), (b"PK\3\4", "archive"), (b"BZh", "archive"), (b"\xfd7zXZ", "archive"), (b"7z\xbc\xaf", "archive"),
                        (b"%PDF", "archive"), (b"\x89PNG", "picture"), (b"\x28\xb5\x2f\xfd", "archive")):
        if head.startswith(front):
            return kind
    header = re.match(rb">>([a-zA-Z0-9_]+) *(?:le|be)? *<<", head)
    if header:
        return HEADER_NAMES.get(header[1].decode(), "")
    if b"\0" in head:
        return "planar_code"
    return _text_kind(head.decode("utf-8", "replace").lstrip("\ufeff"))


def _text_kind(text: str) -> str:
    """Returns the format of a text by its first lines."""
    first = next((line.rstrip("\r") for line in text.split("\n") if line.strip()), "")
    lines = [line.split("#")[0].strip() for line in text.split("\n")]
    lines = [line for line in (lines if len(lines) < 3 else lines[:-1]) if line][:50]
    if re.match(r"(figure|count|refused|verdict|end|stop) ", first):
        return "figures"
    if re.search(r"<gexf\b", text):
        return "gexf"
    if re.search(r"<graphml\b", text):
        return "graphml"
    if first.lstrip().startswith("<"):
        return "picture"
    for pattern, kind in ((r"\s*(strict\s+)?(di)?graph\b[^\[]*\{", "dot"), (r"(?s)(\s*(Creator|Version|#)[^\n]*\n)*\s*graph\s*\[", "gml"),
                          (r"(?i)\s*\*(vertices|network)\b", "pajek"), (r"\s*[{\[]", "json")):
        if re.match(pattern, text):
            return kind
    if first.startswith(":"):
        return "sparse6"
    if re.match(r"[&;]", first):
        return "digraph6"
    if is_graph6_line(first):
        return "graph6"
    if re.fullmatch(r"\d+ [a-z]+(,[a-z]*)+", first):
        return "ascii"
    rows = [re.split(r"[\s,;]+", line) for line in lines]
    if _is_matrix(rows) or _is_matrix([list(line) for line in lines]):
        return "matrix"
    if rows and all(len(row) == 2 for row in rows):
        return "edges"
    if rows and all(len(row) == 3 and _is_number(row[2]) for row in rows):
        return "edges"
    is_one_each = len({row[0] for row in rows}) == len(rows) and any(len(row) > 2 for row in rows)
    return "adjacency" if is_one_each and all(re.fullmatch(r"[\w.:-]+", word) for row in rows for word in row) else ""


def _is_matrix(rows: List[List[str]]) -> bool:
    """Says whether rows are of zeros and ones, all of one length, and no more than that."""
    return (len(rows) > 1 and all(len(row) == len(rows[0]) and set(row) <= {"0", "1"} for row in rows)
            and (len(rows[0]) == len(rows) or len(rows[0]) > len(rows) > 2))


def is_graph6_line(line: str) -> bool:
    """Says whether a line is as long as its first bytes say, and in the bytes of graph6."""
    if not re.fullmatch("[?-~]+", line):
        return False
    if line[0] != "~":
        n, at = ord(line[0]) - 63, 1
    elif len(line) > 3 and line[1] != "~":
        n, at = sum((ord(letter) - 63) << shift for letter, shift in zip(line[1:4], (12, 6, 0))), 4
    else:
        return len(line) > 8
    return len(line) == at + (n * (n - 1) // 2 + 5) // 6


def _is_number(word: str) -> bool:
    try:
        float(word)
        return True
    except ValueError:
        return False


def looks_like(head: bytes, *wanted: str) -> str:
    """Says in words what an input is, and what reads it; nothing where it is one of the formats that are `wanted`, or unknown."""
    kind = kind_of(head)
    if not kind or kind in wanted:
        return ""
    called, cure = KINDS[kind]
    return f"this is {called}; {cure}" if kind in ("gzip", "empty") else f"this looks like {called}; {cure}"


# what each job reads: the formats, and what is said of them
READS = {**dict.fromkeys(("count", "shift", "schnyder", "bars", "convex", "rect"),
                         ("planar_code", "planar_code, as plantri and planarg -p write it")),
         "embed": ("graph6", "graph6, a graph a line of up to 255 vertices"),
         "verify": ("figures", "the text of figures, as shift, bars and the other jobs write it")}


def reading_hint(job: str, head: bytes) -> Tuple[str, str]:
    """Says what a job reads, and what an input with these first bytes is where that is something else."""
    wanted, reads = READS[job]
    return f"{job} reads {reads}", looks_like(head, wanted)
