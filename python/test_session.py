#!/usr/bin/env python3
"""The tests of sessions: `python3 python/test_session.py` from anywhere.

The programs of examples/session/ are compiled and run where their compilers are there; what is not is left out, which is
said. The program is found as the package finds it.
"""
import collections
import os
import shutil
import subprocess
import sys
import tempfile
import unittest
import unittest.mock

HERE = os.path.dirname(os.path.abspath(__file__))
EXAMPLES = os.path.join(HERE, "..", "examples", "session")
sys.path.insert(0, HERE)
import pigale  # noqa: E402

HOUSE = [(0, 1), (1, 2), (2, 3), (3, 0), (3, 4), (4, 2)]


def houses(number):
    """The drawings that the programs of examples/session/ judge."""
    z = 1

    def coordinate():
        nonlocal z
        z = (z * 1103515245 + 12345) % (1 << 32)
        return (z >> 16) % 12

    return [([(coordinate(), coordinate()) for _ in range(5)], HOUSE) for _ in range(number)]


def counted(verdicts):
    return "".join(f"{name} {number}\n" for name, number in sorted(collections.Counter(verdicts).items()))


def output():
    with open(os.path.join(EXAMPLES, "output.txt"), encoding="ascii") as file:
        return file.read()


class Sessions(unittest.TestCase):
    def test_a_thousand_figures_as_a_thousand_runs(self):
        drawings = houses(1000)
        with pigale.Session() as session:
            answers = [session.check(*drawing) for drawing in drawings]
        self.assertEqual(answers, [pigale.check(*drawing) for drawing in drawings])
        self.assertEqual(counted(answer.name for answer in answers), output())

    def test_figures_of_each_kind(self):
        figures = [*pigale.draw([pigale.prism(5)], "convex"), *pigale.draw([pigale.stacked(4095, 1)], "shift"),
                   *pigale.draw([pigale.wheel(6)], "bars"), *pigale.draw([pigale.quadrangle(4, 4)], "rect"),
                   *pigale.embed(["D~{", "EFz_"]), pigale.GridFigure(1, "shift", [(0, 0), (1, 0)], [[2], []])]
        with pigale.Session() as session:
            answers = [session.verify(figure) for figure in figures * 2]
        self.assertEqual(answers, pigale.run("verify", figures * 2).answers)
        self.assertEqual([answer.name for answer in answers[:7]], ["yes"] * 6 + ["OneSided"])

    def test_another_program_before_an_input_is_full(self):
        drawings = houses(50)
        started = []
        start = subprocess.Popen

        def counting(*words, **named):
            started.append(words)
            return start(*words, **named)

        with unittest.mock.patch.object(pigale.session, "MOST_BYTES", 1000):
            with unittest.mock.patch.object(pigale.session.subprocess, "Popen", counting):
                with pigale.Session() as session:
                    answers = [session.check(*drawing) for drawing in drawings]
                    verdict = session.verify(pigale.GridFigure(1, "shift", [(0, 0)], [[]]))
        self.assertEqual(answers, pigale.check_all(drawings))
        self.assertEqual((verdict.number, session.judged), (51, 51))
        self.assertGreater(len(started), 5)

    def test_more_than_an_input_in_all(self):
        figure = str(pigale.draw([pigale.stacked(4095, 7)])[0])
        with pigale.Session() as session:
            for _ in range((1 << 24) // len(figure) + 20):
                self.assertEqual(session.verify(figure).name, "yes")

    def test_what_has_no_verdict(self):
        good = pigale.draw([pigale.stacked(6, 1)], "shift")[0]
        with pigale.Session() as session:
            session.verify(good)
            for text, place in (("figure 1 shift 2\n1 at 0 0:\n2 at 9999999 0:", "Limit 3"), ("figure 1 circle 2\n1 at", "BadLine 1"),
                                ("figure 0 shift 1\n1 at 0 0:", "Limit 1"), ("figure 1 shift 1\n1  at 0 0:", "BadLine 2")):
                with self.assertRaisesRegex(pigale.PigaleError, f"stop {place}"):
                    session.verify(text)
                self.assertEqual(session.verify(good).name, "yes")
            for text in ("figure 1 shift 3\n1 at 0 0:", "figure 1 shift 4096", "count 1", "", f"{good}\nend", f"{good}\n{good}", "figure 1 bars 1\n1 y 0 x 0 0:"):
                with self.assertRaises(ValueError):
                    session.verify(text)
            with self.assertRaises(ValueError):
                session.check([(0.5, 0)], [])
            self.assertEqual(session.verify(good).name, "yes")
            # the program may be ended from outside
            session._running.kill()
            session._running.wait()
            with self.assertRaises(pigale.PigaleError):
                session.verify(good)
            self.assertEqual(session.verify(good).name, "yes")
        session.close()
        self.assertEqual(session.verify(good).name, "yes")
        session.close()

    def test_there_is_no_program(self):
        with unittest.mock.patch.object(pigale.session, "program", side_effect=FileNotFoundError("none")):
            with self.assertRaises(FileNotFoundError):
                pigale.Session()


class Examples(unittest.TestCase):
    def run_example(self, *words):
        done = subprocess.run([*words, pigale.program()], stdout=subprocess.PIPE, check=False, cwd=EXAMPLES)
        self.assertEqual((done.returncode, done.stdout.decode()), (0, output()))

    @unittest.skipUnless(shutil.which("g++"), "g++ is not there")
    def test_session_in_cpp(self):
        with tempfile.TemporaryDirectory() as folder:
            made = os.path.join(folder, "session")
            subprocess.run(["g++", "-std=c++17", "-Wall", "-Wextra", "-Werror", "-o", made, os.path.join(EXAMPLES, "session.cpp")], check=True)
            self.run_example(made)

    @unittest.skipUnless(shutil.which("java"), "java is not there")
    def test_session_in_java(self):
        self.run_example("java", "Session.java")

    @unittest.skipUnless(shutil.which("node"), "node is not there")
    def test_session_in_javascript(self):
        self.run_example("node", "session.mjs")


def main():
    suite = unittest.defaultTestLoader.loadTestsFromModule(sys.modules["__main__"])
    result = unittest.TextTestRunner(stream=sys.stdout, verbosity=0).run(suite)
    for line in sorted({f"{test.id().rpartition('.')[2]}: {cause}" for test, cause in result.skipped}):
        print(f"left out: {line}")
    failed = len(result.failures) + len(result.errors)
    print(f"{result.testsRun - failed - len(result.skipped)} passed, {failed} failed")
    return 1 if failed else 0


if __name__ == "__main__":
    sys.exit(main())
