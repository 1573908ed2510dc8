#!/usr/bin/env python3
"""The tests of the library within Python: its answers are the program's.

Where tools/library has not made it they are left out, which is said; where all are, the status is 77.
"""
import os
import random
import shutil
import subprocess
import sys
import tempfile
import unittest
import unittest.mock

ROOT = os.path.dirname(os.path.dirname(os.path.realpath(__file__)))
sys.path.insert(0, os.path.join(ROOT, "python"))

import pigale
from pigale.library import answered, library, made_library

LIBRARY = os.environ.get("PIGALE_LIBRARY") or os.path.join(ROOT, "out", "library", "libpigale.so")
MEMORY = os.path.join(ROOT, "library", "memory.c")
SIZES = """
#include <stdio.h>
int main(void)
{
    tried none = rattle_alloc(0, 8), some = rattle_alloc(16, 8);
    if (!none.ok || !some.ok) return 1;
    some.at[0] = 7;
    some = rattle_realloc(some.at, 16, 0, 8);
    if (!some.ok) return 2;
    some = rattle_realloc(some.at, 0, 32, 8);
    if (!some.ok) return 3;
    some.at[31] = 7;
    rattle_dealloc(some.at);
    rattle_dealloc(none.at);
    return 0;
}
"""
RUNS = [("count", "platonic.plc"), ("shift", "platonic.plc"), ("schnyder --form svg", "platonic.plc"), ("bars", "platonic.plc"),
        ("convex", "platonic.plc"), ("rect", "quadrangles.plc"), ("embed", "graphs.g6"), ("verify", "crossing.txt"),
        ("count", "refused.plc"), ("count", "graphs.g6"), ("draw", "graphs.g6"), ("gen --size 9 --number 4", "graphs.g6")]


class OfTheseSources(unittest.TestCase):
    def test_a_library_of_other_sources_is_not_taken(self) -> None:
        with tempfile.TemporaryDirectory() as top:
            for folder in ("tools", "out/library"):
                os.makedirs(os.path.join(top, folder))
            with open(os.path.join(top, "tools", "sources"), "w", encoding="ascii") as file:
                file.write("#!/bin/sh\necho sum-of-$1\n")
            os.chmod(file.name, 0o755)
            made = os.path.join(top, "out", "library", "libpigale.so")
            for noted, wanted in ((None, None), ("another", None), ("sum-of-pigale_c\n", made), ("", None)):
                made_library.cache_clear()
                open(made, "w", encoding="ascii").close()
                if noted is not None:
                    with open(os.path.join(top, "out", "library", "sources"), "w", encoding="ascii") as file:
                        file.write(noted)
                self.assertEqual(made_library(top), wanted)
            os.remove(made)
            made_library.cache_clear()
            self.assertIsNone(made_library(top))


@unittest.skipUnless(shutil.which("cc"), "there is no C compiler")
class Memory(unittest.TestCase):
    def test_no_bytes_are_memory_too(self) -> None:
        with tempfile.TemporaryDirectory() as folder:
            source, program = os.path.join(folder, "sizes.c"), os.path.join(folder, "sizes")
            with open(source, "w", encoding="ascii") as file:
                file.write(f'#include "{MEMORY}"\n{SIZES}')
            subprocess.run(["cc", "-Wall", "-o", program, source], check=True)
            self.assertEqual(subprocess.run([program], check=False).returncode, 0)


@unittest.skipUnless(os.path.exists(LIBRARY), "tools/library has not made the library")
class Library(unittest.TestCase):
    def test_answers_as_the_program(self) -> None:
        for words, name in RUNS:
            with open(os.path.join(ROOT, "examples", name), "rb") as file:
                data = file.read()
            done = subprocess.run([pigale.program(), *words.split()], input=data, stdout=subprocess.PIPE, check=False)
            for capacity in (None, 1, len(done.stdout)):
                self.assertEqual(answered(LIBRARY, words.split(), data, capacity), (done.returncode, done.stdout.decode()))

    def test_calls_answer_as_the_program(self) -> None:
        """Figures, witnesses, refusals and verdicts by typed calls are those that the program writes."""
        source = random.Random(6)
        maps = [pigale.stacked(n, n) for n in range(3, 30)] + [pigale.prism(5), pigale.grid(4, 5), pigale.wheel(7), pigale.path(4), pigale.cycle(3), [[]], [[2], [1]],
                pigale.quadrangle(3, 4), pigale.tree(9, source), pigale.complete(5), [[2], []], [[1]], [[2, 2], [1]], [[5], []]]
        graphs = [(n, [(u, v) for v in range(1, n + 1) for u in range(1, v) if source.random() < 0.5]) for n in range(0, 12) for _ in range(6)]
        drawings = []
        for _ in range(200):
            places = [(source.randrange(-9, 9), source.randrange(9)) for _ in range(6)]
            drawings.append((places, source.sample([(u, v) for v in range(6) for u in range(v)], 5)))
        answers = []
        for path in ("", LIBRARY):
            with unittest.mock.patch.dict(os.environ, PIGALE_LIBRARY=path):
                answers.append([[str(figure) for job in ("shift", "schnyder", "bars", "convex", "rect") for figure in pigale.draw(maps, job)],
                                [str(figure) for figure in pigale.embed(graphs)], pigale.check_all(drawings)])
        for one, other in zip(*answers):
            self.assertEqual(one, other)

    def test_drawings_that_only_the_library_judges(self) -> None:
        with unittest.mock.patch.dict(os.environ, PIGALE_LIBRARY=LIBRARY):
            places = [(0, 0), (1048576, 1), (1, 1048576), (524288, 3)]
            self.assertTrue(pigale.check(places, [(0, 1), (1, 2), (2, 0)]))
            self.assertEqual(str(pigale.check([(0, 0), (1048576, 0), (3, 1), (524289, 0)], [(0, 1), (2, 3)])), "OnEdge 3 0 1")
            with self.assertRaisesRegex(ValueError, "within 1048576 by 1048576"):
                pigale.check([(0, 0), (1048577, 1), (1, 0)], [])
            for call, words in ((lambda: pigale.draw([[[0]]]), "a neighbour of vertex 1"), (lambda: pigale.draw([[]]), "1 to 65535"), (lambda: pigale.draw([[[300]]]), "a neighbour of vertex 1"),
                                (lambda: pigale.embed([(3, [(1, 4)])]), "1 4 is no edge"), (lambda: pigale.embed([(3, [(2, 2)])]), "2 2 is no edge"), (lambda: pigale.embed([(256, [])]), "up to 255")):
                self.assertRaisesRegex(ValueError, words, call)

    def test_run_asks_the_library_that_is_named(self) -> None:
        kept = os.environ.get("PIGALE_LIBRARY")
        try:
            os.environ["PIGALE_LIBRARY"] = LIBRARY
            self.assertEqual(library(), LIBRARY)
            self.assertEqual(str(pigale.run("count", [[[2, 3], [3, 1], [1, 2]]]).answers[0]), "count 1 n 3 m 3 f 2 c 1 genus 0")
            with self.assertRaises(pigale.PigaleError):
                pigale.run("count", b"\x05")
            os.environ["PIGALE_LIBRARY"] = ""
            self.assertIsNone(library())
        finally:
            os.environ.pop("PIGALE_LIBRARY")
            if kept is not None:
                os.environ["PIGALE_LIBRARY"] = kept


def main() -> int:
    suite = unittest.defaultTestLoader.loadTestsFromModule(sys.modules["__main__"])
    result = unittest.TextTestRunner(stream=sys.stdout, verbosity=0).run(suite)
    failed, left_out = len(result.failures) + len(result.errors), len(result.skipped)
    for line in sorted({f"{test.id().rpartition('.')[2]}: {cause}" for test, cause in result.skipped}):
        print(f"left out: {line}")
    print(f"{result.testsRun - failed - left_out} passed, {failed} failed, {left_out} skipped")
    return 1 if failed else 77 if left_out == result.testsRun else 0


if __name__ == "__main__":
    sys.exit(main())
