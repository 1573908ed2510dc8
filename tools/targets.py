"""Builds of the proved program and library for each system that they are released for.

A copy of the program's crates takes over the libraries that the gate proved, and `rattle build` proves and compiles the
crate on top once for each target of the kit. A kit that keeps on the machine what passed hands them over itself, in a
minute, and proves what no gate did, which takes long. Of another kit the libraries are those that the gate left in out/; it
fails where one is missing, or older than a source.

What the kit builds of the library, and the LLVM module of which its clang makes that, is what tools/systems.py goes on with."""
import os
import re
import shutil
import subprocess
import tempfile
from dataclasses import dataclass

ROOT = os.path.dirname(os.path.dirname(os.path.realpath(__file__)))
TOOLS = f"{ROOT}/tools"
ARM = "aarch64-linux-gnu"
LINUX = {"x86_64": "x86_64-unknown-linux-gnu", "aarch64": "aarch64-unknown-linux-gnu"}
WASM = "wasm64-unknown-unknown"


class Failed(Exception):
    """Says which step of a build failed, and what it said."""


def kit():
    """Returns the folder of the kit, in which `rt` stands below bin/."""
    return os.path.dirname(os.path.dirname(os.path.realpath(shutil.which("rt"))))


def call(*words, cwd=None):
    """Runs a command, and returns what it wrote; raises Failed where it failed."""
    how = {"stdin": subprocess.DEVNULL, "stdout": subprocess.PIPE, "stderr": subprocess.STDOUT}
    ran = subprocess.run(words, cwd=cwd, text=True, errors="replace", check=False, **how)
    if ran.returncode:
        last = "\n".join(ran.stdout.strip().split("\n")[-20:])
        raise Failed(f"{' '.join(words)[:300]} ended with status {ran.returncode}:\n{last}")
    return ran.stdout


def keeps():
    """Says whether the kit's gate keeps on the machine what it proved, and proves only what changed."""
    # rt help ends with a status of its own, and some kits write it to standard error
    said = subprocess.run(["rt", "help"], stdin=subprocess.DEVNULL, capture_output=True, text=True, check=False)
    return "--anew" in said.stdout + said.stderr


def listed():
    """Returns the lines of crates.txt by crate: the line, and the names behind its colon."""
    found = {}
    with open(f"{ROOT}/crates.txt", encoding="utf-8") as file:
        for line in file:
            head, colon, tail = line.split("#")[0].partition(":")
            if colon:
                found[head.split()[0]] = (line, tail.split())
    return found


def below(lines, names):
    """Returns the crates at or below those with these names, each behind those that it names."""
    found = []
    for name in names:
        if name in lines and name not in found:
            found += [it for it in below(lines, lines[name][1]) if it not in found] + [name]
    return found


def newest(folders):
    """Returns the time at which the newest file below some folders was written."""
    files = (f"{at}/{name}" for folder in folders for at, _, names in os.walk(folder) for name in names)
    return max(map(os.path.getmtime, files), default=0)


class Copy:
    """Has the crates at and below some, as the gate proves them, in a folder of its own, for a `with`."""

    def __init__(self, tops):
        self.lines = listed()
        self.names = below(self.lines, tops)
        self.folder = tempfile.mkdtemp(prefix="pigale-build-")
        with open(f"{self.folder}/crates.txt", "w", encoding="utf-8") as file:
            file.writelines(self.lines[name][0] for name in self.names)
        shutil.copy(f"{ROOT}/HANDLES", self.folder)
        for name in self.names:
            shutil.copytree(f"{ROOT}/crates/{name}", f"{self.folder}/crates/{name}",
                            ignore=lambda folder, _: {"out", "must-fail"} if os.path.basename(folder) == name else ())

    def __enter__(self):
        try:
            if keeps():
                call("rt", "ci", cwd=self.folder)
            else:
                self.take_over()
        except BaseException:
            self.__exit__()
            raise
        return self

    def take_over(self):
        """Copies what the gate left in out/ of each crate: the libraries, and the programs."""
        for name in self.names:
            sources = newest(f"{ROOT}/crates/{name}/{part}" for part in ("src", "specs", "proofs"))
            library, program = (f"crates/{name}/out/{it}" for it in (f"rlib/{name}.rlib", name))
            if os.path.isdir(f"{ROOT}/{library}") and newest([f"{ROOT}/{library}"]) > sources:
                shutil.copytree(f"{ROOT}/{library}", f"{self.folder}/{library}")
            elif os.path.isfile(f"{ROOT}/{program}") and os.path.getmtime(f"{ROOT}/{program}") > sources:
                os.makedirs(os.path.dirname(f"{self.folder}/{program}"))
                shutil.copy(f"{ROOT}/{program}", f"{self.folder}/{program}")
            elif name != "pigale_c":
                raise Failed(f"out/ of {name} has nothing newer than its sources: run the gate first")

    def __exit__(self, *_):
        shutil.rmtree(self.folder, ignore_errors=True)

    def build(self, name, to, *more, toolchain=None):
        """Builds the object or the archive of a crate, and returns the last line of its proof."""
        return self.rattle("build", name, *more, "--backend", "llvm", "--toolchain", toolchain or f"{kit()}/toolchain", "-o", to)

    def check(self, name, *more):
        """Checks a crate, and returns the last line of its proof."""
        return self.rattle("check", name, *more)

    def rattle(self, command, name, *more):
        words = [f"{kit()}/bin/rattle", command, "--crate-name", name, *more]
        crate = f"{self.folder}/crates/{name}"
        words += [next(it for it in ("src/main.rt", "src/lib.rt") if os.path.exists(f"{crate}/{it}"))]
        for it in ("std", *self.lines[name][1]):
            words += ["--extern", f"{it}={self.library(it)}"]
        words += ["-L", f"dependency={kit()}/rlibs"]
        for it in below(self.lines, self.lines[name][1]):
            words += ["-L", f"dependency={os.path.dirname(self.library(it))}"]
        words += ["--antt-project", f"{kit()}/rattle/logic/antt-project.json", "--logic-built", f"{kit()}/logic_built", "--links", f"{name}="]
        said = call(*words, cwd=crate)
        proved = re.findall(r"^logic=proved .*$", said, re.M)
        if not proved:
            raise Failed(f"no line of {name} says that it is proved:\n{said[-2000:]}")
        return proved[-1]

    def library(self, name):
        """Returns the folder of a proved library, of these crates or of the kit."""
        own = f"{self.folder}/crates/{name}/out/rlib/{name}.rlib"
        return own if name in self.names else f"{kit()}/rlibs/{name}.rlib"


def gate_program(copy):
    """Returns the program as the gate built it, for this machine and its own C library."""
    return f"{copy.folder}/crates/pigale/out/pigale"


def tool(name):
    """Returns the path of a tool of the kit's toolchain."""
    return f"{kit()}/toolchain/bin/{name}"


def static_program(copy, to):
    """Links the program for x86-64 with all that it needs, and returns its target and the last line of its proof."""
    with tempfile.TemporaryDirectory() as room:
        target = LINUX["x86_64"]
        verdict = copy.build("pigale", f"{room}/pigale.o", "--target", target)
        parts = [f"{room}/pigale.o", f"{kit()}/c/libos_c.a", f"{kit()}/c/liblibc_c.a"]
        call(f"{kit()}/bin/rattle-link", "--target", target, "--toolchain", f"{kit()}/toolchain",
             "-o", f"{room}/pigale", *parts)
        with open(f"{room}/pigale", "rb") as one, open(gate_program(copy), "rb") as other:
            if one.read() != other.read():
                raise Failed("a second build of the program gave other bytes than the gate's")
        call("gcc", "-static-pie", "-Wl,--gc-sections", "-s", "-o", to, *parts)
    return target, verdict


def arm_program(copy, to):
    """Links the program for arm64 with all that it needs, and returns its target and the last line of its proof."""
    with tempfile.TemporaryDirectory() as room:
        target = LINUX["aarch64"]
        verdict = copy.build("pigale", f"{room}/pigale.o", "--target", target)
        call(f"{ARM}-gcc", "-O2", "-static", "-Wl,--gc-sections", "-s", "-o", to, f"{room}/pigale.o", f"{TOOLS}/arm64.c")
    return target, verdict


@dataclass
class Built:
    """The library as the kit built it for Linux: the processor, a folder with its archive, the LLVM module `input` that clang
    compiled last and the options of that, and the last line of its proof."""
    machine: str
    folder: str
    verdict: str

    @property
    def target(self):
        return LINUX[self.machine]

    def options(self):
        """Returns the options that clang was given, but for the target and the files."""
        with open(f"{self.folder}/options", encoding="utf-8") as file:
            words = file.read().split("\0")[:-1]
        for it in ("-o", "-target"):
            if it in words:
                at = words.index(it)
                words = words[:at] + words[at + 2:]
        return [it for it in words if not it.startswith("--target=") and not it.endswith((".bc", ".ll"))]


def built_library(copy, machine, folder):
    """Builds the library for Linux on a processor into a folder, and keeps the module of which clang made it."""
    os.makedirs(folder)
    verdict = copy.build("pigale_c", f"{folder}/library.a", "--crate-type", "staticlib", "--target", LINUX[machine],
                         "--jobs", "2", toolchain=keeping(folder))
    return Built(machine, folder, verdict)


def keeping(folder):
    """Returns a toolchain that is the kit's, and keeps in a folder the module that its clang is given.

    Of the modules that clang compiles to an object the last is `input`, and the options of that call are `options`: the kit
    may have clang print its module `module.bc` first, and go on with a text."""
    to = f"{folder}/toolchain"
    os.makedirs(f"{to}/bin")
    os.symlink(f"{kit()}/toolchain/lib", f"{to}/lib")
    for it in os.listdir(f"{kit()}/toolchain/bin"):
        os.symlink(tool(it), f"{to}/bin/{it}")
    os.remove(f"{to}/bin/clang")
    with open(f"{to}/bin/clang", "w", encoding="utf-8") as file:
        file.write(f"""#!/bin/bash
for it in "$@"; do
    case $it in *.bc) cp "$it" '{folder}/module.bc' ;; esac
    case "$it $* " in *.bc\\ *" -c "* | *.ll\\ *" -c "*) [ -f "$it" ] && cp "$it" '{folder}/input' && printf '%s\\0' "$@" >'{folder}/options' ;; esac
done
exec -a "$0" '{tool("clang")}' "$@"
""")
    os.chmod(f"{to}/bin/clang", 0o755)
    return to


def module_verdict(copy):
    """Returns the last line of the proof of the library for WebAssembly. The kit proves it for that target, and does not build
    it, since it takes its memory from C."""
    return copy.check("pigale_c", "--crate-type", "staticlib", "--target", WASM, "--jobs", "2")
