#!/usr/bin/env python3
"""Makes the tables of a program that runs rows: its `stdin` and its `stdout`, from the texts in its folder `rows/`.

  rows.py [NAME..]          writes both files of these crates; with no name, of each crate that has such a folder
  rows.py --check [NAME..]  writes nothing, and fails where a file is not what the texts make

A text has paragraphs, with an empty line between two. `rows/inputs.txt` comes first, and then the others in the order
of their names. A line of a paragraph is one of these:

  % WORDS           a remark on the paragraphs below: it goes nowhere
  # WORDS           the heading of a row, which the program repeats
  > TEXT            a line that the program must write
  cuts N N/M ..     each `run` below that sets no cut of its own is made once for each of these: reads of N bytes at most,
                    and writes of M, or of any size
  for J in A..B     the paragraph is repeated for each number from A to B, which stands for {J}; {J+1} is one more
  each A | B ..     a table of its own: the next paragraph is repeated for each line below, which gives {A}, {B} ..
  keep N            of the text that must be written up to the status, only the first N bytes; a `\\` marks an open line

and every other line is one for the program. So this adds nothing but repetition: what must be written stands in the
texts, and no program is asked for it.
"""
import os
import re
import sys

CRATES = os.path.join(os.path.dirname(os.path.dirname(os.path.abspath(__file__))), "crates")
PLACE = re.compile(r"\{([A-Z]+)(\+1)?\}")


def stop(why):
    sys.exit(f"rows.py: {why}")


def filled(line, values):
    """A line with what stands for each name in it."""
    def value(found):
        text = values.get(found[1], found[0])
        return str(int(text) + 1) if found[2] and found[1] in values else text

    return PLACE.sub(value, line)


def table(lines):
    """The rows of a table, each as what its line gives for the names of the first line."""
    names = [name.strip() for name in lines[0].removeprefix("each ").split("|")]
    for line in lines[1:]:
        cells = [cell.strip() for cell in line.split("|")]
        if len(cells) != len(names):
            stop(f"a line of a table has {len(cells)} parts in place of {len(names)}: {line}")
        yield dict(zip(names, cells))


def numbered(line):
    """What the number of a repeated paragraph is called, and each of its values."""
    found = re.fullmatch(r"for ([A-Z]+) in (\d+)\.\.(\d+)", line)
    if not found:
        stop(f"no such line: {line}")
    return [{found[1]: str(value)} for value in range(int(found[2]), int(found[3]) + 1)]


def repeated(paragraphs):
    """All paragraphs, those that are repeated as often as they are, without the lines that say so."""
    rows = [{}]
    for lines in paragraphs:
        if lines[0].startswith("each "):
            rows = list(table(lines))
            continue
        if lines[0].startswith("for "):
            rows, lines = numbered(lines[0]), lines[1:]
        for values in rows:
            yield [filled(line, values) for line in lines]
        rows = [{}]


def kept(texts, count):
    """The first bytes of a text and the status behind it."""
    last = next(at for at, text in enumerate(texts) if text.startswith("status "))
    front = "".join(text + "\n" for text in texts[:last])[:count]
    lines = front.split("\n")
    return lines[:-1] + [lines[-1] + "\\"] * (lines[-1] != "") + texts[last:]


def cut_lines(cut):
    """The lines that set the sizes of reads and writes."""
    reads, _, writes = cut.partition("/")
    return [f"read {reads}", f"write {writes or 'whole'}"]


def parted(paragraph, cuts):
    """The lines of a paragraph for the program, and those that it must write."""
    asked, wanted, count = [], [], None
    for line in paragraph:
        if line.startswith(">"):
            wanted.append(line[2:])
        elif line.startswith("keep "):
            count = int(line.removeprefix("keep "))
        else:
            asked.append(line)
    headings = [line for line in asked if line.startswith("# ")]
    wanted = wanted if count is None else kept(wanted, count)
    runs = [line for line in asked if line.split(" ")[0] == "run"]
    if cuts and runs and not any(line.startswith(("read ", "write ")) for line in asked):
        asked = [line for line in asked if line not in runs]
        asked += [line for cut in cuts for line in (*cut_lines(cut), *runs)]
        wanted = wanted * len(cuts)
    return asked, headings + wanted


def parts(text):
    """The paragraphs of a text, without remarks."""
    for paragraph in re.split(r"\n\n+", text.strip("\n")):
        lines = [line for line in paragraph.split("\n") if not line.startswith("%")]
        if lines:
            yield lines


def made(folder):
    """What the texts of a folder make: lines for the program, and lines that it must write."""
    asked, wanted = [], []
    for name in sorted(os.listdir(folder), key=lambda name: (name != "inputs.txt", name)):
        cuts = []
        with open(os.path.join(folder, name), encoding="ascii") as text:
            paragraphs = list(parts(text.read()))
        for paragraph in repeated(paragraphs):
            if paragraph[0].startswith("cuts "):
                cuts = paragraph[0].split(" ")[1:]
                continue
            lines, texts = parted(paragraph, cuts)
            asked += lines
            wanted += texts
    return {"stdin": asked, "stdout": wanted}


def main():
    words = [word for word in sys.argv[1:] if word != "--check"]
    names = words or [name for name in sorted(os.listdir(CRATES)) if os.path.isdir(os.path.join(CRATES, name, "rows"))]
    stale = []
    for name in names:
        for file, lines in made(os.path.join(CRATES, name, "rows")).items():
            path = os.path.join(CRATES, name, file)
            text = "".join(line + "\n" for line in lines)
            if "--check" not in sys.argv:
                with open(path, "w", encoding="ascii") as out:
                    out.write(text)
            elif not os.path.exists(path) or open(path, encoding="ascii").read() != text:
                stale.append(f"crates/{name}/{file}")
    if stale:
        stop("not what the texts make: " + " ".join(stale))


if __name__ == "__main__":
    main()
