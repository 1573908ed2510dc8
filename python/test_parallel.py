#!/usr/bin/env python3
"""The tests of inputs of any size: `python3 python/test_parallel.py` from anywhere.

What `all` writes is compared with what one run of the program writes, on inputs of below 16 MiB that are cut into many
parts; where it mends an input, with a run on the mended one. The program is found as the package finds it.
"""
import gzip
import io
import itertools
import json
import os
import re
import shutil
import signal
import subprocess
import sys
import tempfile
import time
import unittest
import unittest.mock

HERE = os.path.dirname(os.path.abspath(__file__))
EXAMPLES = os.path.join(HERE, "..", "examples")
sys.path.insert(0, HERE)
import pigale  # noqa: E402
import pigale.tables  # noqa: E402
import pigale.workers  # noqa: E402

SMALL = {"LEAST_PART": 16, "MOST_PART": 200, "MOST_COUNTED": 300}
FIGURE = b"figure 1 shift 3\n1 at 2 0: 2 3\n2 at 0 0: 3 1\n3 at 1 1: 1 2\n"


def content(name):
    with open(os.path.join(EXAMPLES, name), "rb") as file:
        return file.read()


def one_run(words, data):
    done = subprocess.run([pigale.program(), *words], input=data, stdout=subprocess.PIPE, check=False)
    return done.returncode, done.stdout


def in_parts(words, data, processes=2):
    """The status and the text of a run over all processors, in parts of some ten to hundred bytes."""
    sink = io.BytesIO()
    with unittest.mock.patch.multiple(pigale.parallel, **SMALL):
        status = pigale.run_all(words, io.BytesIO(data), sink, processes)
    return status, sink.getvalue()


def mended(job, data):
    """What the program gets for lines, by docs/FORMATS.md, in the plainest way."""
    lines = (data.replace(b">>graph6<<", b"\n") if job == "embed" else data).split(b"\n")
    closed = [line[:-1] if line.endswith(b"\r") else line for line in lines[:-1]]
    return b"".join(line + b"\n" for line in [*closed, lines[-1]] if line)


def wide(lists):
    numbers = [len(lists)] + [u for us in lists for u in [*us, 0]]
    return b"\0" + b"".join(u.to_bytes(2, "big") for u in numbers)


def planar_code():
    """Records of one number of vertices, of several, and wide ones among them."""
    one_size = pigale.write_planar_code([pigale.stacked(12, k) for k in range(40)])
    mixed = pigale.write_planar_code([pigale.stacked(n, n) for n in range(3, 40)] + [pigale.cycle(62), [[2], []], [[]]])
    with_wide = pigale.HEADER + b"".join(wide(pigale.wheel(n)) for n in range(3, 12)) + wide(pigale.cycle(300)) + mixed[15:]
    return [one_size, one_size[15:], mixed, with_wide, pigale.HEADER, b""]


class Parts(unittest.TestCase):
    def setUp(self):
        patched = unittest.mock.patch.dict(os.environ, PIGALE_LIBRARY="")
        patched.start()
        self.addCleanup(patched.stop)

    def assert_same(self, words, data):
        read = mended(words[0], data) if words[0] in ("embed", "verify") else data
        self.assertEqual(in_parts(words, data), one_run(words, read), f"{words} on {data[:60]!r}.. of {len(data)} bytes")

    def test_maps(self):
        for data in planar_code():
            for job in pigale.PLANAR_JOBS:
                self.assert_same([job], data)
            self.assert_same(["shift", "--form", "svg"], data)

    def test_maps_that_end_badly(self):
        for data in planar_code()[:4]:
            middle = len(data) // 2
            for cut in (1, 14, 15, 16, 17, 18, middle, middle + 7, len(data) - 1):
                self.assert_same(["count"], data[:cut])
            for count in (0, 4096, 65535):
                self.assert_same(["bars"], data + b"\0" + count.to_bytes(2, "big") + data)
            self.assert_same(["shift", "--form=svg"], data + b"\0\0\0")
            self.assert_same(["count"], data + b"\0\0")
            self.assert_same(["count"], data[:middle] + bytes(range(256)) + data[middle:])
            self.assert_same(["count"], b">>planar_code xe<<" + data)

    def test_graphs(self):
        lines = [pigale.write_graph6((n, itertools.combinations(range(1, n + 1), 2))) for n in range(0, 12)] * 8
        text = "".join(f"{line}\n" for line in lines).encode()
        for header in (b"", b">>graph6<<", b">>graph6<<\n"):
            for end in (b"", b"D~{", b"\n", b"D~\n", b"D~{\r\n", b"\xff\n", b">>graph5<<\n", b"?\n" * 50 + b"D~|\n" + text,
                        pigale.write_graph6((300, [])).encode() + b"\n" + text):
                self.assert_same(["embed"], header + text + end)
        self.assert_same(["embed", "--form", "svg"], text)
        for text in (b">>graph6<<", b">>graph6<<\n\n", b">>graph6<<>>graph6<<\nD~{\n", b"\n", b""):
            self.assert_same(["embed"], text)

    def test_figures(self):
        figures = [figure for name in ("platonic-shift.txt", "platonic-bars.txt", "graphs-embed.txt", "quadrangles-rect.txt")
                   for figure in pigale.read_figures(content(name))]
        text = "".join(f"{figure}\n" for figure in figures).encode() + b"count me\nverdict 7\n" + FIGURE * 30
        lines = text.split(b"\n")
        self.assert_same(["verify"], text)
        self.assert_same(["verify"], b"end of notes\n" * 100 + text)
        for end in (b"figure", b"figure 1 shift 3", b"figure 1 shift 3\n", b"x\n", b"stop", b"figure 1 shift 4096\n", b"\n"):
            self.assert_same(["verify"], text + end)
            self.assert_same(["verify"], text + end + FIGURE * 20)
        for end in (b"figure 1 shift 3\r\n1 at 2 0: 2 3\r\n", b"count me\r\nx\r\n", b"count \rx\r"):
            self.assert_same(["verify"], text + end)
        for at in (0, 1, 7, 40, len(lines) - 50, len(lines) - 2):
            self.assert_same(["verify"], b"\n".join(lines[:at] + lines[at + 1:]))
            self.assert_same(["verify"], b"\n".join(lines[:at] + [b"count 1"] + lines[at:]))
            self.assert_same(["verify"], b"\n".join(lines[:at]))

    def test_figures_that_end_where_a_part_does(self):
        short = FIGURE.replace(b"shift 3", b"shift 4")
        for data in (short + FIGURE, FIGURE + short + FIGURE * 30, short + b"figure 2 sh", short + b"end\n", short):
            self.assert_same(["verify"], data)


class Mended(unittest.TestCase):
    def test_the_list_of_all_that_is_mended(self):
        for case in json.loads(content("mended.json")):
            given, read = case["given"].encode("latin-1"), case["read"].encode("latin-1")
            status, text = one_run([case["job"]], read)
            if "stop" in case:
                text = re.sub(rb"stop .*\n\Z", f"{case['stop']}\n".encode(), text)
            for data in [gzip.compress(given)] if case.get("gzip") else [given, gzip.compress(given)]:
                self.assertEqual(in_parts([case["job"]], data), (status, text), case["name"])
                sink = io.BytesIO()
                self.assertEqual((pigale.run_all([case["job"]], io.BytesIO(data), sink), sink.getvalue()), (status, text), case["name"])

    def test_bad_lines_among_many_empty_ones(self):
        lines = [line for figure in range(30) for line in (b"", *FIGURE.split(b"\n")[:3], b"\r", FIGURE.split(b"\n")[3])]
        for at in range(1, len(lines), 7):
            if lines[at].strip():
                text = b"\n".join([*lines[:at], b"x", *lines[at:], b""])
                self.assertEqual(in_parts(["verify"], text)[1].split(b"\n")[-2], b"stop BadLine %d" % (at + 1))


class Joined(unittest.TestCase):
    def test_maps(self):
        one, other = planar_code()[0], planar_code()[2]
        maps = pigale.read_planar_code(one) + pigale.read_planar_code(other)
        wanted = one_run(["count"], pigale.write_planar_code(maps))
        self.assertEqual(in_parts(["count"], one + other), wanted)
        self.assertEqual(in_parts(["count"], gzip.compress(one) + gzip.compress(other)), wanted)
        self.assertEqual(in_parts(["count"], pigale.HEADER * 3 + one + pigale.HEADER + other + pigale.HEADER), wanted)
        self.assertEqual(pigale.read_planar_code(one + other), maps)
        # a bad place is told by its number in the whole, all headers counted
        whole = one + other + other[:-1]
        last = len(one + other) + len(other) - 2
        self.assertEqual(in_parts(["count"], whole)[1].split(b"\n")[-2], f"stop EndInRecord {last}".encode())

    def test_graphs(self):
        text = content("graphs.g6")
        wanted = one_run(["embed"], text + text.replace(b">>graph6<<\n", b"").replace(b">>graph6<<", b""))
        self.assertEqual(in_parts(["embed"], text + text), wanted)
        self.assertEqual(in_parts(["embed"], text + gzip.decompress(gzip.compress(text))), wanted)

    def test_byte_orders(self):
        edge = [[2], [1]]
        little = b">>planar_code le<<\0" + bytes([2, 0, 2, 0, 0, 0, 1, 0, 0, 0])
        great = b">>planar_code<<\0" + bytes([0, 2, 0, 2, 0, 0, 0, 1, 0, 0])
        self.assertEqual(pigale.read_planar_code(little + great + little), [edge] * 3)
        done = subprocess.run([sys.executable, os.path.join(HERE, "pigale.py"), "recode"], stdout=subprocess.PIPE, check=False,
                              input=gzip.compress(little + great) + gzip.compress(little))
        self.assertEqual((done.returncode, done.stdout), (0, pigale.write_planar_code([edge] * 3)))


class Faults(unittest.TestCase):
    def test_gzip_that_is_cut_off(self):
        data = planar_code()[0]
        packed = gzip.compress(data)
        for cut in (4, 30, len(packed) // 2, len(packed) - 4):
            status, text = in_parts(["count"], packed[:cut])
            lines = text.split(b"\n")
            self.assertEqual(status, 4)
            self.assertFalse([line for line in lines if line.startswith((b"end", b"stop"))])
            self.assertEqual(one_run(["count"], data)[1][:len(text)], text)
        self.assertEqual(in_parts(["verify"], gzip.compress(FIGURE * 3)[:-8])[0], 4)

    def test_a_record_larger_than_an_input(self):
        data = planar_code()[0]
        for words, front, large in ((["count"], data, b"\x01" + b"\x02" * (1 << 24) + b"\0"), (["embed"], b"D~{\n", b"~" * (1 << 24) + b"\n"),
                                    (["verify"], FIGURE, b"figure 1 shift 3\n1 at 2 0:" + b" 1" * (1 << 23) + b"\n")):
            sink = io.BytesIO()
            self.assertEqual(pigale.run_all(words, io.BytesIO(front + large + front), sink), 3)
            self.assertEqual(sink.getvalue().split(b"\n")[-2], b"stop TooLong")

    def test_words(self):
        with self.assertRaises(ValueError):
            pigale.run_all(["gen"], io.BytesIO(), io.BytesIO())
        self.assertEqual(in_parts(["count", "--form=svg"], planar_code()[0]), (2, b"stop BadWords\n"))

    def with_program(self, body, *words, data=None, processes=2):
        """The status, the text and the trouble of a run in which `body`, a script, stands for the program."""
        with tempfile.TemporaryDirectory() as folder:
            path = os.path.join(folder, "pigale")
            with open(path, "w", encoding="ascii") as file:
                file.write(f"#!/bin/bash\nreal='{pigale.program()}' folder='{folder}'\n{body}\n")
            os.chmod(path, 0o755)
            sink, troubles = io.BytesIO(), []
            with unittest.mock.patch.dict(os.environ, PIGALE=path, PIGALE_LIBRARY=""), unittest.mock.patch.multiple(pigale.parallel, **SMALL):
                status = pigale.run_all(words or ["count"], io.BytesIO(planar_code()[0] if data is None else data), sink, processes,
                                        lambda progress: troubles.append(progress.trouble))
            return status, sink.getvalue(), troubles[-1]

    def test_a_program_that_dies(self):
        for body, status, text, trouble in (("echo count 1 n; exit 6", 6, b"count 1 n\n", "not enough memory, on the part that begins with record 1 at byte 0"),
                                            ("kill -9 $$", 137, b"", "ended by signal 9, 3 times, on the part that begins with record 1 at byte 0"),
                                            ("exit 137", 137, b"", "signal 9"), ("exit 5", 5, b"", "a write failed"),
                                            ("echo count 1 n 2; exit 0", 5, b"count 1 n 2\n", "status 0 and without its last line"),
                                            ("exit 1", 5, b"", "status 1 and without its last line"), ("kill -15 $$", 143, b"", "signal 15")):
            found = self.with_program(body)
            self.assertEqual(found[:2], (status, text), body)
            self.assertIn(trouble, found[2])

    def test_a_part_is_tried_again(self):
        whole = one_run(["count"], planar_code()[0])
        # each third program is killed, before it writes or behind its first line
        often = '( flock 9; n=$(cat "$folder/n" 2>/dev/null); echo $((n + 1)) >"$folder/n"; exit $((n % 3)) ) 9>"$folder/lock"'
        for how in ("kill -9 $$", '"$real" "$@" | head -1; kill -9 $$'):
            self.assertEqual(self.with_program(f'{often}\nif [ $? -eq 1 ]; then {how}; fi\nexec "$real" "$@"'), (*whole, ""))

    def test_a_part_that_kills_each_program(self):
        """The answers to the parts before it come, and it is named by its first record and byte."""
        maps = [pigale.stacked(12, k) for k in range(40)]
        before, after = pigale.write_planar_code(maps), pigale.write_planar_code([pigale.cycle(7), *maps], False)
        lines = one_run(["count"], before)[1].split(b"\n")
        status, text, trouble = self.with_program('cp /dev/stdin "$folder/in.$$"; grep -qUaP "\\x07\\x02\\x07\\x00\\x03" "$folder/in.$$" 2>/dev/null && kill -11 $$\n'
                                                  'exec "$real" "$@" <"$folder/in.$$"', data=before + after)
        self.assertEqual(status, 139)
        number, byte = map(int, re.search(r"signal 11, 3 times, on the part that begins with record (\d+) at byte (\d+);", trouble).groups())
        self.assertEqual(text.split(b"\n"), [*lines[:number - 1], b""])
        self.assertEqual(byte, len(pigale.write_planar_code(maps[:number - 1])))
        self.assertGreater(number, 20)

    def test_a_sink_that_takes_a_part_at_a_time(self):
        class Raw(io.RawIOBase):
            def __init__(self):
                self.taken = []

            def writable(self):
                return True

            def write(self, data):
                self.taken.append(bytes(data)[:7])
                return min(7, len(data))

        class Plain:
            def __init__(self):
                self.taken = []

            def write(self, data):
                self.taken.append(data)

        wanted = one_run(["shift"], planar_code()[0])
        for sink in (Raw(), Plain()):
            self.assertEqual((pigale.run_all(["shift"], io.BytesIO(planar_code()[0]), sink), b"".join(sink.taken)), wanted)

    def test_a_pipe_without_a_buffer_and_without_waiting(self):
        """Standard output takes parts where Python's own is unbuffered, and nothing at times where it does not wait."""
        data = pigale.write_planar_code([pigale.stacked(40, k) for k in range(600)])
        wanted = one_run(["shift"], data)[1]
        for is_waiting in (True, False):
            reading, writing = os.pipe()
            os.set_blocking(writing, is_waiting)
            running = subprocess.Popen([sys.executable, os.path.join(HERE, "pigale.py"), "all", "shift", "-j", "4"], stdin=subprocess.PIPE, stdout=writing,
                                       env={**os.environ, "PYTHONUNBUFFERED": "1"})
            os.close(writing)
            running.stdin.write(data)
            running.stdin.close()
            with open(reading, "rb", buffering=0) as file:
                found = b"".join(iter(lambda: file.read(3000), b""))
            self.assertEqual((running.wait(), found), (0, wanted))

    def test_a_signal(self):
        """It ends the programs that were started, and the command by itself, without a traceback."""
        for number in (signal.SIGTERM, signal.SIGHUP, signal.SIGINT):
            with tempfile.TemporaryDirectory() as folder:
                path = os.path.join(folder, "pigale")
                with open(path, "w", encoding="ascii") as file:
                    file.write(f"#!/bin/sh\ntouch '{folder}/'$$\nexec sleep 60\n")
                os.chmod(path, 0o755)
                running = subprocess.Popen([sys.executable, os.path.join(HERE, "pigale.py"), "all", "count", "-j", "3"], stdin=subprocess.PIPE,
                                           stdout=subprocess.PIPE, stderr=subprocess.PIPE, env={**os.environ, "PIGALE": path, "PIGALE_LIBRARY": ""},
                                           # a shell starts what runs behind it with SIGINT ignored
                                           preexec_fn=lambda: signal.signal(number, signal.SIG_DFL))
                running.stdin.write(pigale.HEADER + planar_code()[0][15:] * 20)
                running.stdin.flush()
                while len(os.listdir(folder)) < 3:
                    time.sleep(0.02)
                running.send_signal(number)
                out, said = running.communicate()
                self.assertEqual((running.returncode, out, said), (-number, b"", b""))
                for name in os.listdir(folder):
                    if name.isdecimal():
                        with self.assertRaises(ProcessLookupError):
                            os.kill(int(name), 0)

    def test_closed_streams(self):
        """They end it as they end the program, with a sentence."""
        for words, ending, status, sentence in (("all count", "<&-", 4, "standard input is closed"), ("picture", "<&-", 4, "standard input"),
                                                ("all count", ">&-", 5, "standard output is closed"), ("all count", ">/dev/full", 5, "closed or full"),
                                                ("recode", ">/dev/full", 5, "standard output"), ("stacked 9 1", ">&-", 5, "standard output"),
                                                ("page count", "<&-", 4, "standard input")):
            done = subprocess.run(["bash", "-c", f"'{sys.executable}' '{HERE}/pigale.py' {words} {ending}"], cwd=HERE, check=False,
                                  input=planar_code()[0], stdout=subprocess.PIPE, stderr=subprocess.PIPE)
            said = done.stderr.decode()
            self.assertEqual((done.returncode, said.count("\n")), (status, 1), (words, ending, said))
            self.assertIn(sentence, said)

    def test_a_closed_pipe(self):
        command = f"'{sys.executable}' '{HERE}/pigale.py' all count | head -1"
        with tempfile.TemporaryFile() as file:
            file.write(pigale.write_planar_code([pigale.cycle(3)]) + pigale.write_planar_code([pigale.cycle(3)] * 200000, False))
            file.seek(0)
            done = subprocess.run(["bash", "-c", command + "; exit ${PIPESTATUS[0]}"], stdin=file, stdout=subprocess.PIPE,
                                  stderr=subprocess.PIPE, check=False)
        self.assertEqual((done.returncode, done.stdout), (5, b"count 1 n 3 m 3 f 2 c 1 genus 0\n"))
        self.assertNotIn(b"Traceback", done.stderr)


IN_SMALL_PARTS = f"""
import sys
sys.path.insert(0, {HERE!r})
import pigale.parallel
pigale.parallel.LEAST_PART = pigale.parallel.MOST_PART = pigale.parallel.MOST_COUNTED = 4000
sys.exit(pigale.cli.main())
"""


class Resumed(unittest.TestCase):
    """Runs with a log, which go on behind it."""

    def setUp(self):
        self.folder = tempfile.mkdtemp()
        self.addCleanup(shutil.rmtree, self.folder)
        self.log, self.out, self.runs = (os.path.join(self.folder, name) for name in ("log", "out", "runs"))
        counted = os.path.join(self.folder, "pigale")
        with open(counted, "w", encoding="ascii") as file:
            file.write(f"#!/bin/sh\necho >> '{self.runs}'\nexec '{pigale.program()}' \"$@\"\n")
        os.chmod(counted, 0o755)
        self.environment = {**os.environ, "PIGALE": counted, "PIGALE_LIBRARY": ""}

    def begun(self, *words, mode="ab"):
        """The command `all` with a log, which appends to the file of the run."""
        with open(self.out, mode) as out:
            return subprocess.Popen([sys.executable, "-c", IN_SMALL_PARTS, "all", *words, "--log", self.log], env=self.environment,
                                    stdin=subprocess.PIPE, stdout=out, stderr=subprocess.PIPE)

    def ended(self, data, *words, mode="ab"):
        """The status of that command, and what it says."""
        running = self.begun(*words, mode=mode)
        said = running.communicate(data)[1].decode()
        return running.returncode, said

    def lines(self, path):
        if not os.path.exists(path):
            return 0
        with open(path, "rb") as file:
            return file.read().count(b"\n")

    def killed(self, data, *words):
        """Gives the command a part of its input, and kills it once some parts more are done."""
        before, running = self.lines(self.log), self.begun(*words)
        running.stdin.write(data)
        running.stdin.flush()
        while self.lines(self.log) < before + 3:
            self.assertIsNone(running.poll())
            time.sleep(0.01)
        running.kill()
        running.communicate()

    def test_killed_in_the_middle(self):
        for words, data in ((("bars", "-j", "2"), pigale.write_planar_code([pigale.stacked(20, k) for k in range(1000)])),
                            (("embed", "--form", "svg", "-j", "2"), b"".join(pigale.write_graph6((9, pigale.edges_of(pigale.stacked(9, k)))).encode() + b"\n" for k in range(30)) * 400)):
            for path in (self.log, self.out, self.runs):
                if os.path.exists(path):
                    os.remove(path)
            self.killed(data[:len(data) // 2], *words)
            self.killed(data[:len(data) * 3 // 4], *words, "--resume")
            done, run = self.lines(self.log), self.lines(self.runs)
            with open(self.log, "ab") as file:
                file.write(b"byte 7")  # a line that was cut off
            with open(self.out, "ab") as file:
                file.write(b"a text that was cut off")
            status, said = self.ended(data, *words, "--resume")
            with open(self.out, "rb") as file:
                self.assertEqual((status, said, file.read()), (0, "", one_run(words[:-2], data)[1]))
            self.assertEqual(self.lines(self.log) - done, self.lines(self.runs) - run)
            self.assertGreaterEqual(done, 6)
            # once more, when all is done
            run = self.lines(self.runs)
            self.assertEqual(self.ended(data, *words, "--resume"), (0, ""))
            with open(self.out, "rb") as file:
                self.assertEqual((self.lines(self.runs), file.read()), (run, one_run(words[:-2], data)[1]))

    def test_what_it_does_not_go_on_behind(self):
        data = planar_code()[0]
        self.assertEqual(self.ended(data, "count"), (0, ""))
        self.assertIn("is there already: with --resume", self.ended(data, "count")[1])
        for given, words, mode, sentence in ((data, ("shift", "--resume"), "ab", "is no log of `pigale all shift`"), (data[:200], ("count", "--resume"), "ab", "the input is another"),
                                             (data, ("count", "--resume"), "wb", "by >> and not by >")):
            status, said = self.ended(given, *words, mode=mode)
            self.assertEqual((status, said.count("\n")), (3, 1))
            self.assertIn(sentence, said)
        done = subprocess.run([sys.executable, os.path.join(HERE, "pigale.py"), "all", "count", "--log", self.log, "--resume"], input=data,
                              stdout=subprocess.PIPE, stderr=subprocess.PIPE, check=False)
        self.assertEqual((done.returncode, done.stdout), (3, b""))
        self.assertIn(b"goes on in the file of what it wrote", done.stderr)
        done = subprocess.run([sys.executable, os.path.join(HERE, "pigale.py"), "all", "count", "--resume"], input=data, stdout=subprocess.PIPE,
                              stderr=subprocess.PIPE, check=False)
        self.assertEqual((done.returncode, b"--log LOG names" in done.stderr), (3, True))

    def test_a_part_that_failed(self):
        """A part on which the program is killed each time is not in the log, and a later run answers it."""
        data = pigale.write_planar_code([pigale.stacked(20, k) for k in range(1000)])
        with open(self.environment["PIGALE"], encoding="ascii") as file:
            script = file.read()
        with open(self.environment["PIGALE"], "w", encoding="ascii") as file:
            file.write(script.replace("exec", f"[ $(wc -l < '{self.runs}') -gt 4 ] && kill -9 $$; exec"))
        status, said = self.ended(data, "count", "-j", "1")
        self.assertEqual(status, 128 + 9)
        self.assertRegex(said, "ended by signal 9, 3 times, on the part that begins with record [0-9]+ at byte [0-9]+")
        with open(self.environment["PIGALE"], "w", encoding="ascii") as file:
            file.write(script)
        self.assertEqual(self.ended(data, "count", "--resume"), (0, ""))
        with open(self.out, "rb") as file:
            self.assertEqual(file.read(), one_run(["count"], data)[1])


class Module(unittest.TestCase):
    def test_run_draw_and_embed(self):
        maps = [pigale.stacked(9, k) for k in range(60)] + [pigale.cycle(4)]
        lines = ["D~{", "C~", "?"] * 20
        for processes in (1, 3):
            with unittest.mock.patch.multiple(pigale.parallel, **SMALL):
                self.assertEqual(pigale.run("convex", maps, processes=processes), pigale.run("convex", maps))
                self.assertEqual(pigale.draw(maps, "bars", processes=processes), pigale.draw(maps, "bars"))
                self.assertEqual(pigale.embed(lines, processes=processes), pigale.embed(lines))
                with self.assertRaisesRegex(pigale.PigaleError, "EndInRecord") as caught:
                    pigale.run("count", pigale.write_planar_code(maps)[:-1], processes=processes)
                self.assertEqual(len(caught.exception.run.answers), 60)

    def test_more_than_an_input(self):
        lines = pigale.write_graph6((255, [])) + "\n"
        count = pigale.MOST_BYTES // len(lines) + 2
        with unittest.mock.patch.object(pigale.runs, "read_blocks", lambda text: [text[text.rindex("\nend") + 1:]]):
            self.assertEqual(pigale.run("embed", lines * count).blocks, [f"end records {count} refused 0\n"])

    def test_stream(self):
        endless = (pigale.stacked(5 + k % 7, k) for k in itertools.count())
        taken = list(itertools.islice(pigale.stream("schnyder", endless, 2), 3000))
        self.assertEqual([figure.number for figure in taken], list(range(1, 3001)))
        self.assertEqual(taken[100:110], [pigale.GridFigure(k + 1, *[(f.job, f.places, f.lists) for f in
                                          pigale.draw([pigale.stacked(5 + k % 7, k)])][0]) for k in range(100, 110)])
        self.assertEqual(list(pigale.stream("embed", ["D~{", "C~"])), pigale.embed(["D~{", "C~"]))
        self.assertEqual(list(pigale.stream("verify", io.BytesIO(FIGURE * 2))), [pigale.Verdict(k, "yes", ()) for k in (1, 2)])
        self.assertEqual(list(pigale.stream("count", [])), [])
        answers = pigale.stream("count", pigale.write_planar_code([pigale.cycle(3)])[:-1])
        with self.assertRaisesRegex(pigale.PigaleError, "EndInRecord 15"):
            next(answers)
        with self.assertRaisesRegex(ValueError, "map 3"):
            list(pigale.stream("count", [[[]], [[]], [[]] * 5000]))


@unittest.skipUnless(pigale.workers.answering_library(), "there is no library that answers parts")
class ByLibrary(Parts):
    """The tests of parts once more, and what processes that have the library do besides."""

    def setUp(self):
        pass

    def test_room_that_does_not_do(self):
        with unittest.mock.patch.object(pigale.worker, "ROOM", 0):
            self.assert_same(["shift", "--form", "svg"], planar_code()[0])

    def test_words_and_bad_places(self):
        self.assertEqual(in_parts(["count", "--form=svg"], planar_code()[0]), (2, b"stop BadWords\n"))
        for data in planar_code()[:4]:
            self.assertEqual(in_parts(["bars"], data + b"\0\0\0" + data), one_run(["bars"], data + b"\0\0\0" + data))

    def test_numbers_that_the_library_does_not_have(self):
        with unittest.mock.patch.object(pigale.parallel, "MOST_NUMBERED", 7):
            self.assert_same(["shift"], planar_code()[0])

    def killed(self, job, data, number):
        """The status, the text and the trouble of a run of which each process is ended by a signal as often as told."""
        sink, troubles, left = io.BytesIO(), [], [number]
        hear = pigale.workers._Process.hear

        def killing(process):
            if left[0]:
                left[0] -= 1
                process.running.kill()
            hear(process)

        with unittest.mock.patch.multiple(pigale.parallel, **SMALL), unittest.mock.patch.object(pigale.workers._Process, "hear", killing):
            status = pigale.run_all([job], io.BytesIO(data), sink, 3, lambda progress: troubles.append(progress.trouble))
        return status, sink.getvalue(), troubles[-1]

    def test_killed_processes(self):
        """Those that are killed in the middle lose nothing, and nothing comes twice."""
        for job, data in (("shift", planar_code()[0]), ("count", planar_code()[2]), ("bars", planar_code()[3])):
            self.assertEqual(self.killed(job, data, 2), (*one_run([job], data), ""))
        # an answer that is there before the signal comes is taken
        status, text, trouble = self.killed("shift", planar_code()[0], 1000)
        whole = one_run(["shift"], planar_code()[0])[1]
        self.assertEqual((status, text, text == whole), (137, whole[:len(text)], False))
        self.assertRegex(trouble, r"ended by signal 9, 3 times, on the part that begins with record \d+ at byte \d+;")

    def test_tables(self):
        """A table is the same by the library, by programs and of the text of one run."""
        for job, data in (("count", planar_code()[2]), ("convex", planar_code()[3]), ("rect", planar_code()[0]), ("embed", content("graphs.g6"))):
            tables = []
            for path in (pigale.workers.answering_library(), ""):
                tally = pigale.tables.Tally(job)
                with unittest.mock.patch.dict(os.environ, PIGALE_LIBRARY=path), unittest.mock.patch.multiple(pigale.parallel, **SMALL):
                    pigale.parallel.tabled(job, io.BytesIO(data), tally, 2)
                tables.append(str(tally))
            tally = pigale.tables.Tally(job)
            tally.write(one_run([job], data)[1])
            self.assertEqual(tables, [str(tally)] * 2)


class Large(unittest.TestCase):
    def test_48_megabytes(self):
        """The answers to 48 MB are those to its parts, and memory stays bounded."""
        maps = pigale.write_planar_code([pigale.stacked(12, k) for k in range(2000)] + [[[2], []]], header=False)
        times = (48 << 20) // len(maps) + 1
        with tempfile.TemporaryFile() as given, tempfile.TemporaryFile() as out:
            given.write(pigale.HEADER)
            for _ in range(times):
                given.write(maps)
            given.seek(0)
            running = subprocess.Popen([sys.executable, os.path.join(HERE, "pigale.py"), "all", "count"], stdin=given, stdout=out)
            _, status, used = os.wait4(running.pid, 0)
            running.returncode = os.waitstatus_to_exitcode(status) if hasattr(os, "waitstatus_to_exitcode") else status >> 8
            self.assertEqual(running.returncode, 1)
            self.assertLess(used.ru_maxrss, 200 << 10)
            out.seek(0)
            lines = out.read().split(b"\n")
        self.assertEqual(lines[-2:], [f"end records {2001 * times} refused {times}".encode(), b""])
        wanted = one_run(["count"], pigale.HEADER + maps)[1].split(b"\n")[:2001]
        for k in (0, 1, times // 2, times - 1):
            words = [line.split(b" ", 2) for line in wanted]
            self.assertEqual(lines[2001 * k:2001 * (k + 1)], [b"%s %d %s" % (w, int(n) + 2001 * k, rest) for w, n, rest in words])


def main():
    suite = unittest.defaultTestLoader.loadTestsFromModule(sys.modules["__main__"])
    result = unittest.TextTestRunner(stream=sys.stdout, verbosity=0).run(suite)
    failed = len(result.failures) + len(result.errors)
    print(f"{result.testsRun - failed} passed, {failed} failed")
    return 1 if failed else 0


if __name__ == "__main__":
    sys.exit(main())
