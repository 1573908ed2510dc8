#!/usr/bin/env python3
"""The tests of ./pigale, ./install and tools/unrun: `python3 python/test_scripts.py` from anywhere.

What the first two say beside the program, by copies of the scripts in a folder in which the rest of the repository is
linked; and which calls the third finds in small crates. The program is found as the package finds it.
"""
import importlib.util
import os
import shutil
import subprocess
import sys
import tempfile
import unittest

HERE = os.path.dirname(os.path.abspath(__file__))
TOP = os.path.dirname(HERE)
sys.path.insert(0, HERE)
import pigale  # noqa: E402

LINKED = ("crates", "crates.txt", "release", "tools", "man", "completions", "include", "library", "python")


class Scripts(unittest.TestCase):
    def setUp(self):
        self.folder = tempfile.mkdtemp()
        self.addCleanup(shutil.rmtree, self.folder)
        for name in LINKED:
            os.symlink(os.path.join(TOP, name), os.path.join(self.folder, name))
        for name in ("install", "pigale"):
            shutil.copy(os.path.join(TOP, name), self.folder)

    def ran(self, *words, **named):
        """The status, the output and what a script says besides."""
        done = subprocess.run(words, cwd=self.folder, stdout=subprocess.PIPE, stderr=subprocess.PIPE, check=False, **named)
        return done.returncode, done.stdout, done.stderr.decode()


class Install(Scripts):
    def installed(self, *words, noted=None):
        """What is installed below a prefix, and what is said, where a library is there whose sources are noted so."""
        made = os.path.join(self.folder, "out", "library")
        os.makedirs(made, exist_ok=True)
        for name in ("libpigale.so", "libpigale.a"):
            open(os.path.join(made, name), "w", encoding="ascii").close()
        if noted is not None:
            with open(os.path.join(made, "sources"), "w", encoding="ascii") as file:
                file.write(noted)
        prefix = os.path.join(self.folder, "prefix")
        shutil.rmtree(prefix, ignore_errors=True)
        status, _, said = self.ran("./install", "--stale", *words, prefix)
        self.assertEqual(status, 0, said)
        return os.listdir(os.path.join(prefix, "lib")) if os.path.exists(os.path.join(prefix, "lib")) else [], said

    def test_a_library_of_these_sources(self):
        sources = subprocess.run([os.path.join(TOP, "tools", "sources"), "pigale_c"], stdout=subprocess.PIPE, check=True).stdout.decode()
        files, said = self.installed(noted=sources)
        self.assertIn("libpigale.so.1", files)
        self.assertIn("the library that was made here of these sources", said)

    def test_a_library_of_other_sources(self):
        """Without --stale it is left out, and that is said."""
        for noted in (None, "another\n"):
            files, said = self.installed(noted=noted)
            self.assertIn("libpigale.so.1", files)
            self.assertIn("of other sources than these", said)
        # without --stale the program has to be of these sources, so that is asked of the real one
        status, _, said = self.ran("./install", os.path.join(self.folder, "prefix-2"))
        if status == 0:
            self.assertEqual("the released library" in said, os.path.exists(os.path.join(self.folder, "prefix-2", "lib")))
            self.assertIn("the library in out/library is of other sources than these", said)

    def test_the_released_library(self):
        """What release/ has for this system is unpacked, and a program in C is compiled and linked with it by pkg-config."""
        prefix = os.path.join(self.folder, "prefix")
        status, _, said = self.ran("./install", "--stale", prefix)
        self.assertEqual(status, 0, said)
        if "the released library" not in said or not shutil.which("cc") or not shutil.which("pkg-config"):
            self.skipTest("release/ has no library for this system, or there is no compiler or pkg-config")
        environment = {**os.environ, "PKG_CONFIG_PATH": os.path.join(prefix, "lib", "pkgconfig")}
        words = subprocess.run(["pkg-config", "--cflags", "--libs", "pigale"], env=environment, stdout=subprocess.PIPE, check=True).stdout
        program = os.path.join(self.folder, "draw")
        subprocess.run(["cc", os.path.join(TOP, "examples", "c", "draw.c"), *words.decode().split(), "-o", program], check=True)
        self.assertEqual(self.ran(program)[0], 0)


@unittest.skipUnless(shutil.which("nauty-geng") and shutil.which("nauty-planarg"), "nauty is not there")
class Cluster(unittest.TestCase):
    """Parts of a list that are counted by themselves have the sums of the whole."""

    def setUp(self):
        self.folder = tempfile.mkdtemp()
        self.addCleanup(shutil.rmtree, self.folder)
        for name in ("examples", "release"):
            os.symlink(os.path.join(TOP, name), os.path.join(self.folder, name))
        self.environment = {**os.environ, "PIGALE": pigale.program(), "PARTS": "7"}
        made = subprocess.run("nauty-geng -c -q 6 | nauty-planarg -p -q", shell=True, stdout=subprocess.PIPE, check=True).stdout
        counts = pigale.count(pigale.read_planar_code(made))
        table = sorted({(one.n, one.m, one.f, one.c, one.genus) for one in counts})
        rows = [(*row, sum((one.n, one.m, one.f, one.c, one.genus) == row for one in counts)) for row in table]
        self.wanted = "".join(f"{' '.join(map(str, row))}\n" for row in rows) + f"end records {len(counts)} refused 0\n"

    def ran(self, *words, **more):
        done = subprocess.run(words, cwd=self.folder, env={**self.environment, **more}, stdout=subprocess.PIPE, stderr=subprocess.PIPE, check=False)
        return done.returncode, done.stdout.decode()

    def summed(self):
        return self.ran("bash", "-c", "awk -v parts=7 -f examples/cluster/sum.awk planar-6/*.txt")

    def test_an_array_of_tasks(self):
        for part in range(7):
            status, _ = self.ran("bash", "examples/cluster/slurm.sh", "6", SLURM_ARRAY_TASK_ID=str(part), PIGALE="false" if part == 3 else self.environment["PIGALE"])
            self.assertEqual(status != 0, part == 3)
        self.assertEqual(self.summed()[0], 1)
        self.assertEqual(self.ran("bash", "examples/cluster/slurm.sh", "6", SLURM_ARRAY_TASK_ID="3")[0], 0)
        # what is there is not done again
        self.assertEqual(self.ran("bash", "examples/cluster/slurm.sh", "6", SLURM_ARRAY_TASK_ID="3", PIGALE="false")[0], 0)
        self.assertEqual(self.summed(), (0, self.wanted))

    @unittest.skipUnless(shutil.which("parallel"), "GNU parallel is not there")
    def test_parallel(self):
        self.assertNotEqual(self.ran("bash", "examples/cluster/parallel.sh", "6", "7", PIGALE="false")[0], 0)
        self.assertEqual(self.ran("bash", "examples/cluster/parallel.sh", "6", "7"), (0, self.wanted))
        self.assertEqual(self.ran("bash", "examples/cluster/parallel.sh", "6", "7"), (0, self.wanted))

    @unittest.skipUnless(importlib.util.find_spec("distributed"), "Dask is not there")
    def test_dask(self):
        self.assertEqual(self.ran(sys.executable, "examples/cluster/dask_parts.py", "6", "7"), (0, self.wanted))


class Unrun(unittest.TestCase):
    """Which public calls are found that nothing runs."""
    LOW = """pub type Answer = Result<u16, AllocError>;
pub struct Table { }
impl Table {
    pub fn of(alloc: Global) -> Result<Self, AllocError> {
        Ok(Table {})
    }
    pub fn grown(&mut self) -> Result<(), AllocError> {
        Ok(())
    }
}
pub fn parts(alloc: Global) -> Result<u16, AllocError> {
    Ok(1)
}
pub fn maybe(alloc: Global) -> Option<u16> {
    None
}
pub fn aliased(alloc: Global) -> Answer {
    Ok(1)
}
pub fn first(table: &Table) -> Option<u16> {
    None
}
"""
    HIGH = """mod inner;
pub use low::parts as low_parts;
pub fn parts(alloc: Global) -> Result<u16, AllocError> {
    low_parts(alloc)
}
"""

    def missing(self, body, uses="use low::Table;"):
        """The calls that nothing runs, by the names of their crates and their own, where `main` has this body."""
        with tempfile.TemporaryDirectory() as top:
            with open(os.path.join(top, "crates.txt"), "w", encoding="ascii") as file:
                file.write("low:\nhigh: low\nrows: low high\n")
            for crate, name, text in (("low", "lib", self.LOW), ("high", "lib", self.HIGH), ("rows", "main", f"{uses}\nfn main() {{\n    {body}\n}}\n")):
                folder = os.path.join(top, "crates", crate, "src")
                os.makedirs(folder)
                with open(os.path.join(folder, f"{name}.rt"), "w", encoding="ascii") as file:
                    file.write(text)
            done = subprocess.run([sys.executable, os.path.join(TOP, "tools", "unrun"), top], stdout=subprocess.PIPE, check=False)
        lines = done.stdout.decode().split("\n")
        self.assertEqual(done.returncode, 1 if len(lines) > 2 else 0)
        return [line.split(" ", 1)[1].split(" can")[0] for line in lines[:-2]]

    ALL = ["high: parts", "low: Table::grown", "low: Table::of", "low: aliased", "low: maybe", "low: parts"]

    def without(self, *names):
        return [name for name in self.ALL if name not in names]

    def test_nothing_is_run(self):
        self.assertEqual(self.missing("let x = 1;"), self.ALL)

    def test_a_name_is_that_of_its_crate(self):
        self.assertEqual(self.missing("parts(alloc);", "use low::parts;"), self.without("low: parts"))
        self.assertEqual(self.missing("parts(alloc);", "use high::parts;"), self.without("low: parts", "high: parts"))
        self.assertEqual(self.missing("low::parts(alloc);"), self.without("low: parts"))
        self.assertEqual(self.missing("low_parts(alloc);", "use high::{low_parts};"), self.without("low: parts"))
        self.assertEqual(self.missing("many(alloc);", "use high::{parts as many, inner};"), self.without("low: parts", "high: parts"))

    def test_options_aliases_and_methods(self):
        self.assertEqual(self.missing("maybe(alloc); aliased(alloc);", "use low::{maybe, aliased};"), self.without("low: maybe", "low: aliased"))
        self.assertEqual(self.missing("let mut table = Table::of(alloc)?; table.grown()?;"), self.without("low: Table::of", "low: Table::grown"))
        self.assertEqual(self.missing("each(low::maybe, 3);"), self.without("low: maybe"))


def main():
    suite = unittest.defaultTestLoader.loadTestsFromModule(sys.modules["__main__"])
    result = unittest.TextTestRunner(stream=sys.stdout, verbosity=0).run(suite)
    failed, left_out = len(result.failures) + len(result.errors), len(result.skipped)
    for line in sorted({f"{test.id().rpartition('.')[2]}: {cause}" for test, cause in result.skipped}):
        print(f"left out: {line}")
    print(f"{result.testsRun - failed - left_out} passed, {failed} failed, {left_out} skipped")
    return 1 if failed else 0


if __name__ == "__main__":
    sys.exit(main())
