#!/usr/bin/env python3
"""Measures the page web/pigale.html in Chromium beside the program: seconds for a file of maps, and whether the texts agree.

  bench/page.py [FILE]    FILE is planar_code; by default the 71,885 connected planar graphs of nine vertices, each in one
                          map, which `nauty-geng -c -q 9 | nauty-planarg -p -q` makes

It needs Chromium, and nauty where no file is given. The page's seconds are those from the choice of a job to its last
answer: they include the cutting of the input, the numbering of the answers, and the first pictures."""
import os
import subprocess
import sys
import tempfile
import time

ROOT = os.path.dirname(os.path.dirname(os.path.realpath(__file__)))
sys.path[:0] = [f"{ROOT}/tools", f"{ROOT}/python"]
import chromium
import pigale

JOBS = ("count", "shift", "schnyder", "bars", "convex", "rect")
TIMES = 3


def run_of(program, job, path):
    """Returns the seconds and the text of the program's run over a file."""
    began = time.perf_counter()
    with open(path, "rb") as file:
        text = subprocess.run([program, job], stdin=file, stdout=subprocess.PIPE, check=False).stdout
    return time.perf_counter() - began, text


def page_run(page, job):
    """Returns the seconds and the text of the page's run over the file that it has."""
    script = f"""(async () => {{
        const began = performance.now();
        document.querySelector('[name=job][value={job}]').checked = true;
        await runJob();
        return [performance.now() - began, page.answers.pieces('{job}').join('')];
    }})()"""
    milliseconds, text = page.run(script)
    return milliseconds / 1000, text.encode()


def main(words):
    program = pigale.program()
    with tempfile.TemporaryDirectory() as room:
        path = words[0] if words else f"{room}/maps"
        if not words:
            subprocess.run(f"nauty-geng -c -q 9 | nauty-planarg -p -q > {path}", shell=True, check=True)
        size = os.path.getsize(path)
        with chromium.Page(f"file://{ROOT}/web/pigale.html") as page:
            page.wait("document.body && document.body.dataset.ready")
            page.give("#file", os.path.abspath(path))
            page.wait("page.answers && !page.isRunning", 600)
            print(f"{size:,} bytes, {page.run('page.answers.records'):,} maps; seconds, the best of {TIMES}\n")
            print("| Job | Program | Page | Text |\n|---|---|---|---|")
            for job in JOBS:
                ran = min(run_of(program, job, path) for _ in range(TIMES))
                shown = min(page_run(page, job) for _ in range(TIMES))
                print(f"| `{job}` | {ran[0]:.2f} | {shown[0]:.2f} | {'the same' if ran[1] == shown[1] else 'ANOTHER'} |")
    return 0


if __name__ == "__main__":
    sys.exit(main(sys.argv[1:]))
