#!/usr/bin/env python3
"""How fast `pigale count` is, beside a plain C program that does the same work (plain_count.c).

  count.py            instructions a byte on inputs of a million bytes, counted by valgrind
  count.py --seconds  seconds and peak memory on inputs of 16 MiB
  count.py --draw JOB instructions a byte of a job that draws, on inputs that suit it

Makes its inputs under bench/out/, the same ones each time. Wants a C compiler, and valgrind for the
first. Not part of the gate.
"""
import os
import random
import re
import subprocess
import sys

HERE = os.path.dirname(os.path.abspath(__file__))
sys.path.insert(0, os.path.join(HERE, "..", "python"))
import pigale  # noqa: E402

OUT = os.path.join(HERE, "out")
PROGRAM = pigale.program()
PLAIN = os.path.join(OUT, "plain_count")

# glibc copies long pieces by `rep`, which valgrind counts by bytes: no piece is long enough for it here.
os.environ["GLIBC_TUNABLES"] = "glibc.cpu.x86_rep_stosb_threshold=2000000000:glibc.cpu.x86_rep_movsb_threshold=2000000000"

source = random.Random(1)


def anew(lists):
    """The map with its vertices numbered anew at random, so that no order of its making helps."""
    return pigale.renumbered(lists, source)


def triangulation(n):
    return anew(pigale.triangulation(n, source))


def tree(n):
    return anew(pigale.tree(n, source))


def path(n):
    return anew(pigale.path(n))


def record(lists):
    return pigale.write_planar_code([lists], header=False)


def fill(records, size):
    """Whole records, again and again, up to the size."""
    out, i = bytearray(), 0
    while not out or len(out) + len(records[i % len(records)]) <= size:
        out += records[i % len(records)]
        i += 1
    return bytes(out)


def inputs(size):
    some = lambda count, make: [record(make()) for _ in range(count)]
    side = int(((size - 3) / 2) ** 0.5)
    yield "triangulations of 10 to 60 vertices", fill(some(400, lambda: triangulation(source.randrange(10, 61))), size)
    yield "triangulations of 255 vertices", fill(some(20, lambda: triangulation(255)), size)
    yield "one complete graph, wide", record(pigale.complete(min(side - 1, 2800)))
    yield "trees and paths of 20 to 254", fill(some(200, lambda: source.choice((tree, path))(source.randrange(20, 255))), size)
    yield "trees and paths of 4,000, wide", fill([record(path(4000)), record(tree(4000))], size)
    yield "triangulations of 6 to 12 vertices", fill(some(400, lambda: triangulation(source.randrange(6, 13))), size)
    yield "triangulations of 4,095, wide", fill(some(2, lambda: triangulation(4095)), size)


def inputs_of(job, size):
    """The inputs on which a job that draws is measured."""
    if job == "rect":
        for rows, columns in ((13, 19), (61, 67)):
            yield f"grids of {rows} by {columns} with diagonals", fill([record(pigale.quadrangle(rows, columns))], size)
        return
    for name, data in inputs(size):
        if not name.startswith("one complete graph"):
            yield name, data
    if job == "convex":
        for k in (127, 2047):
            yield f"prisms of {2 * k} vertices", fill([record(anew(pigale.prism(k)))], size)
        for n in (255, 4095):
            yield f"wheels of {n} vertices", fill([record(anew(pigale.wheel(n)))], size)


def instructions(command, data):
    done = subprocess.run(["valgrind", "--tool=cachegrind", "--cache-sim=no", "--cachegrind-out-file=/dev/null", *command],
                          stdin=open(data, "rb"), stdout=subprocess.DEVNULL, stderr=subprocess.PIPE, text=True)
    return int(re.search(r"I *refs: *([\d,]+)", done.stderr).group(1).replace(",", ""))


# Runs a program in a small process of its own, whose memory is not counted for the program's: its time, and the most
# memory that it had, of which some 10 MB may be this process's.
RUNNER = """
import os, sys, subprocess, time
begun = time.perf_counter()
child = subprocess.Popen(sys.argv[2:], stdin=open(sys.argv[1], "rb"), stdout=subprocess.DEVNULL)
_, status, used = os.wait4(child.pid, 0)
print(time.perf_counter() - begun, used.ru_maxrss / 1024, os.waitstatus_to_exitcode(status))
"""


def seconds(command, data):
    times, most = [], 0
    for _ in range(3):
        done = subprocess.run([sys.executable, "-S", "-c", RUNNER, data, *command], capture_output=True, text=True, check=True)
        taken, memory, status = done.stdout.split()
        times.append(float(taken))
        most = max(most, float(memory))
        if status not in ("0", "1", "3"):
            sys.exit(f"{command[0]} ended with {status}")
    return min(times), most


def main():
    by_seconds = "--seconds" in sys.argv[1:]
    drawn = sys.argv[2] if sys.argv[1:2] == ["--draw"] else None
    os.makedirs(OUT, exist_ok=True)
    subprocess.run(["cc", "-O2", "-o", PLAIN, os.path.join(HERE, "plain_count.c")], check=True)
    for name, data in inputs_of(drawn, 1 << 20) if drawn else inputs(15_800_000 if by_seconds else 1 << 20):
        path_ = os.path.join(OUT, "input.plc")
        with open(path_, "wb") as out:
            out.write(data)
        if drawn:
            print(f"{name}: {instructions([PROGRAM, drawn], path_) / len(data):.1f} instructions a byte", flush=True)
        elif by_seconds:
            ours, memory = seconds([PROGRAM, "count"], path_)
            plain, _ = seconds([PLAIN], path_)
            print(f"{name}: {len(data)} bytes, pigale {ours:.3f} s, {memory:.0f} MB at most; plain C {plain:.3f} s", flush=True)
        else:
            ours = instructions([PROGRAM, "count"], path_) / len(data)
            plain = instructions([PLAIN], path_) / len(data)
            print(f"{name}: {ours:.1f} instructions a byte, plain C {plain:.1f}, {ours / plain:.2f} times", flush=True)


if __name__ == "__main__":
    main()
