#!/usr/bin/env python3
"""How many instructions the checks of drawings take, counted by valgrind.

  check.py FOLDER     FOLDER, outside the repository, takes a copy of it with a program that checks one drawing

The drawings are random triangulations on a grid of 2^20, spanning trees of them, and a triangulation with one
vertex moved over an edge, so that the first fault has nearly the greatest ids. Each count is that of the whole program without that of
reading the drawing. Wants rt and valgrind. Not part of the gate.
"""
import os
import random
import re
import subprocess
import sys

HERE = os.path.dirname(os.path.abspath(__file__))
sys.path.insert(0, os.path.join(HERE, "..", "python"))
import pigale  # noqa: E402

SIDE = 1 << 20

# The program: it reads drawing.txt, which has a word for what to do, the number of vertices, the two ends of a
# base dart, and for each vertex its point, its degree and its list.
PROGRAM = r"""//! Checks the drawing in drawing.txt.
#![tactic(auto)]

ghost use Rattle.std.specs.Prelude.{◌≡◌, ◌<◌, ◌≤◌, ◌+◌, ◌*◌, ◌^◌, ℕ, length, IsTrue, IfSome, OnOk};
ghost use Rattle.std.specs.Bool.{OnTrue};
ghost use Rattle.plane_laws.specs.Triangulations.{IsTriangulation};
ghost use Rattle.draw_check.specs.Faults.{HasPlaces};
ghost use Rattle.pg_plane.specs.Range.{IsInRange};
ghost use Rattle.plane_drawings.specs.Drawing.{place};

use draw_check::{FaceVerdict, Verdict, check, check_by_faces};
use euler_faces::euler;
use half_edges::{HalfMap, Rotations, VertexId};
use pg_plane::{GridFigure, Point, Points};
use std::alloc::Global;
use std::str::SplitWhitespace;
use std::{fs, io};

const MOST: i32 = 1 << 20;

fn number(words: &mut SplitWhitespace) -> i32 {
    match words.next() {
        Some(word) => match word.parse::<i32>() {
            Ok(x) => x,
            Err(_) => 0,
        },
        None => 0,
    }
}

fn vertex(words: &mut SplitWhitespace) -> u16 {
    match u16::try_from(number(words)) {
        Ok(v) => v,
        Err(_) => 0,
    }
}

fn are_in_range(points: &Points) -> bool
    ensures { IsTrue result → (v : ℕ) → v < length points.now → IsInRange (place points.now v) }
{
    for i in 0..points.len() {
        let p = points.get(i);
        if p.x < -MOST || p.x > MOST || p.y < -MOST || p.y > MOST {
            return false;
        }
    }
    true
}

fn are_completed(n: u64, m: u64, f: u64, c: u64) -> bool
    requires { (n < 2 ^ 32) × (m < 2 ^ 32) × (f < 2 ^ 32) × (c < 2 ^ 32) }
    ensures { IsTrue result → (3 ≤ n) × (n + f ≡ 2 * c + m) × (m + 6 ≡ 3 * n) }
{
    3 <= n && n + f == 2 * c + m && m + 6 == 3 * n
}

fn is_completed(alloc: Global, map: &HalfMap) -> Option<bool>
    ensures { IfSome result (λ r. IsTrue r → IsTriangulation map.now.lists) }
{
    map.facts();
    match euler(alloc, map) {
        Ok(count) => Some(are_completed(
            u64::from(count.n),
            u64::from(count.m),
            u64::from(count.f),
            u64::from(count.c),
        )),
        Err(_) => None,
    }
}

fn read_vertices(
    alloc: Global,
    words: &mut SplitWhitespace,
    n: u16,
    lists: &mut Rotations,
    points: &mut Points,
) -> bool {
    for _ in 0..n {
        let x = number(words);
        let y = number(words);
        let degree = number(words);
        let mut list = Vec::new(alloc);
        for _ in 0..degree {
            if list.push(vertex(words)).is_err() {
                return false;
            }
        }
        if lists.push(&list).is_err() || points.push(Point { x, y }).is_err() {
            return false;
        }
    }
    true
}

fn report_faces(rt: &HostRuntime, map: &HalfMap, fig: &GridFigure, u: u16, v: u16) -> io::Result<()>
    requires { HasPlaces map.now.lists fig.now.points }
{
    if map.n() <= u || map.n() <= v {
        return Ok(());
    }
    match is_completed(rt.alloc(), map) {
        Some(true) => match map.dart_of(VertexId(u), VertexId(v)) {
            Some(base) => match check_by_faces(map, base, fig) {
                FaceVerdict::OutOfGrid(_) => println!(rt; "OutOfGrid")?,
                FaceVerdict::Wrong(_, _, _) => println!(rt; "Wrong")?,
                FaceVerdict::Yes => println!(rt; "Yes")?,
            },
            None => println!(rt; "no base")?,
        },
        _ => println!(rt; "not completed")?,
    }
    Ok(())
}

fn report_pairs(rt: &HostRuntime, map: &HalfMap, fig: &GridFigure) -> io::Result<()>
    requires { HasPlaces map.now.lists fig.now.points }
{
    match check(map, fig) {
        Verdict::OutOfGrid(_) => println!(rt; "OutOfGrid")?,
        Verdict::SamePlace(_, _) => println!(rt; "SamePlace")?,
        Verdict::OnEdge(_, _) => println!(rt; "OnEdge")?,
        Verdict::Cross(_, _) => println!(rt; "Cross")?,
        Verdict::Turned(_) => println!(rt; "Turned")?,
        Verdict::Yes => println!(rt; "Yes")?,
    }
    Ok(())
}

fn report(rt: &HostRuntime, map: &HalfMap, fig: &GridFigure, word: &str, u: u16, v: u16) -> io::Result<()> {
    if fig.points.len() != map.n() as usize || !are_in_range(&fig.points) {
        println!(rt; "no drawing")?;
    } else if word == "check" {
        report_pairs(rt, map, fig)?;
    } else if word == "faces" {
        report_faces(rt, map, fig, u, v)?;
    } else if word == "completed" {
        let completed = is_completed(rt.alloc(), map) == Some(true);
        println!(rt; "{completed}")?;
    } else {
        println!(rt; "read")?;
    }
    Ok(())
}

fn main(rt: HostRuntime) -> io::Result<()> {
    let alloc = rt.alloc();
    let text = fs::read_to_string(&rt, "drawing.txt")?;
    let mut words = text.split_whitespace();
    let word = words.next().unwrap_or("");
    let n = vertex(&mut words);
    let u = vertex(&mut words);
    let v = vertex(&mut words);
    let mut lists = Rotations::new(alloc);
    let mut points = Points::new(alloc);
    let complete = read_vertices(alloc, &mut words, n, &mut lists, &mut points);
    if !complete || lists.len() == 0 || 4095 < lists.len() {
        println!(rt; "no drawing")?;
        return Ok(());
    }
    match HalfMap::from_rotations(alloc, &lists) {
        Ok(map) => report(
            &rt,
            &map,
            &GridFigure {
                points,
                width: MOST,
                height: MOST,
            },
            word,
            u,
            v,
        ),
        Err(_) => {
            println!(rt; "no map")?;
            Ok(())
        }
    }
}
"""

INVARIANT = """use Rattle.std.proofs.Common.{ℕ, ◌<◌}
use Rattle.pg_plane.specs.Range.{IsInRange}
use Rattle.plane_drawings.specs.Drawing.{place}
use Rattle.drawing.proofs.are_in_range.Given as goal

abbrev pub invariant-loop-i : goal.invariant-loop-i
invariant-loop-i l = (v : ℕ) → v < l.i → IsInRange (place l.points v)
"""

source = random.Random(1)


def build(folder):
    """The program, in a copy of the repository."""
    copy = os.path.join(folder, "repository")
    crate = os.path.join(copy, "crates", "drawing")
    if not os.path.exists(copy):
        subprocess.run(["git", "clone", "-q", os.path.join(HERE, ".."), copy], check=True)
        with open(os.path.join(copy, "crates.txt")) as file:
            deps = re.search(r"^draw_check: (.*)$", file.read(), re.M).group(1)
        with open(os.path.join(copy, "crates.txt"), "a") as file:
            file.write(f"drawing: {deps} draw_check\n")
        for name, text in (("src/main.rt", PROGRAM), ("proofs/are_in_range/Invariants.antt", INVARIANT), ("stdin", "")):
            path = os.path.join(crate, name)
            os.makedirs(os.path.dirname(path), exist_ok=True)
            with open(path, "w") as file:
                file.write(text)
    subprocess.run(["rt", "run"], cwd=crate, stdout=subprocess.DEVNULL, stderr=subprocess.DEVNULL)
    return os.path.join(crate, "out", "drawing")


def area(a, b, c):
    return (b[0] - a[0]) * (c[1] - a[1]) - (c[0] - a[0]) * (b[1] - a[1])


def is_inside(p, points, triangle):
    a, b, c = (points[v] for v in triangle)
    return area(a, b, p) > 0 and area(b, c, p) > 0 and area(c, a, p) > 0


def triangulation(n):
    """Points, edges, and the last point's triangle: each point is put into the triangle in which it lies."""
    points = [(0, 0), (SIDE, 0), (SIDE // 2, SIDE)]
    edges = {(0, 1), (1, 2), (0, 2)}
    parts, triangle = {(0, 1, 2): None}, None
    while len(points) < n:
        p, triangle = (source.randrange(SIDE + 1), source.randrange(SIDE + 1)), (0, 1, 2)
        while triangle and parts[triangle]:
            triangle = next((part for part in parts[triangle] if is_inside(p, points, part)), None)
        if triangle and is_inside(p, points, triangle):
            (a, b, c), k = triangle, len(points)
            points.append(p)
            edges |= {(a, k), (b, k), (c, k)}
            parts[triangle] = [(a, b, k), (b, c, k), (c, a, k)]
            parts |= {part: None for part in parts[triangle]}
    return points, sorted(edges), triangle


def spanning_tree(n, edges):
    label, out = list(range(n)), []
    for a, b in source.sample(edges, len(edges)):
        x, y = label[a], label[b]
        if x != y:
            label = [x if z == y else z for z in label]
            out.append((a, b))
    return out


def renumbered(points, edges, order):
    number = {v: i for i, v in enumerate(order)}
    return [points[v] for v in order], [tuple(sorted((number[a], number[b]))) for a, b in edges], number


def lists_of(points, edges):
    """The neighbours of each vertex, clockwise, as ids from 0."""
    lists = pigale.rotations_of(points, [(a + 1, b + 1) for a, b in edges])
    return [[u - 1 for u in us] for us in lists]


def instructions(program, folder, word, base, points, lists):
    with open(os.path.join(folder, "drawing.txt"), "w") as file:
        print(word, len(points), *base, file=file)
        for p, us in zip(points, lists):
            print(*p, len(us), *us, file=file)
    done = subprocess.run(["valgrind", "--tool=cachegrind", "--cache-sim=no", "--cachegrind-out-file=/dev/null", program],
                          cwd=folder, capture_output=True, text=True)
    return int(re.search(r"I *refs: *([\d,]+)", done.stderr).group(1).replace(",", "")), done.stdout.strip()


def measure(program, folder, name, word, beside, base, points, lists):
    most, verdict = instructions(program, folder, word, base, points, lists)
    least, _ = instructions(program, folder, beside, base, points, lists)
    print(f"{word} of a {name} of {len(points)}: {verdict}, {most - least:,} instructions", flush=True)


def main():
    folder = os.path.abspath(sys.argv[1])
    program = build(folder)
    for n in (255, 1000, 4095):
        points, edges, triangle = triangulation(n)
        # the last point, a little beyond a side of its triangle, whose vertices come last with it
        _, b, c = triangle
        beyond = tuple((5 * (points[b][i] + points[c][i]) - 2 * points[-1][i]) // 8 for i in (0, 1))
        order = [v for v in range(n - 1) if v not in triangle] + [*triangle, n - 1]
        bad, bad_edges, _ = renumbered(points[:-1] + [beyond], edges, order)
        points, edges, number = renumbered(points, edges, source.sample(range(n), n))
        base, lists = (number[1], number[0]), lists_of(points, edges)
        measure(program, folder, "triangulation", "check", "read", base, points, lists)
        measure(program, folder, "triangulation", "faces", "completed", base, points, lists)
        measure(program, folder, "tree", "check", "read", base, points, lists_of(points, spanning_tree(n, edges)))
        measure(program, folder, "bad triangulation", "check", "read", base, bad, lists_of(bad, bad_edges))


main()
