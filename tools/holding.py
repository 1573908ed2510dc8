"""Holds each file of release/ to the program's answers, as far as it can run on this machine.

Each function takes the path of a file, and returns what it ran by, such as "qemu-aarch64", and how many answers are others;
or None and what is not here that it needs."""
import os
import platform
import shutil
import subprocess
import tempfile
from concurrent.futures import ThreadPoolExecutor

import answers
import packing
from answers import ROOT

MINGW = "x86_64-w64-mingw32"
ARM = "aarch64-linux-gnu"


def missing(*tools):
    """Returns the first of some tools that is not on the path, or None."""
    return next((it for it in tools if not shutil.which(it)), None)


def compiled(compiler, *words):
    """Runs a compiler, and returns whether it ended well; what it says where it did not is printed."""
    ran = subprocess.run([*compiler, *words], capture_output=True, text=True, check=False)
    if ran.returncode:
        print(f"release: {' '.join(compiler)} failed:\n{ran.stderr[-2000:]}")
    return ran.returncode == 0


def emulator(machine):
    """Returns the words that run a program of Linux for a processor here, and what is not here that they need."""
    if platform.system() != "Linux":
        return [], "Linux"
    if platform.machine() == machine:
        return [], None
    for name in (f"qemu-{machine}", f"qemu-{machine}-static"):
        if shutil.which(name):
            return [name], None
    return [], f"qemu-{machine}"


def hold_program(path):
    machine = os.path.basename(path).split("-")[1]
    words, wants = emulator(machine)
    if wants:
        return None, wants
    return words[0] if words else "native", answers.hold([*words, path])


def hold_linux(path):
    """The shared library in this process, or where it is of another processor the static one in a program."""
    machine = os.path.basename(path).split("-")[1]
    words, wants = emulator(machine)
    compiler = [f"{ARM}-gcc", "-static"] if machine == "aarch64" and words else ["cc"]
    wants = wants or missing(compiler[0])
    if wants:
        return None, wants
    with tempfile.TemporaryDirectory() as room:
        folder = packing.unpack(path, room)
        by, wrong = "native", 0
        if words:
            by = words[0]
        else:
            wrong += answers.hold_library(f"{folder}/lib/libpigale.so")
        if not compiled(compiler, "-O2", f"-I{folder}/include", f"{ROOT}/library/program.c", f"{folder}/lib/libpigale.a", "-o", f"{room}/program"):
            return by, wrong + 1
        return by, wrong + answers.hold([*words, f"{room}/program"], f"libpigale.a for {machine}")


def hold_windows(path):
    """The program, and one that calls the shared library."""
    on_windows = platform.system() == "Windows"
    wants = None if on_windows else missing("wine")
    if wants:
        return None, wants
    words = [] if on_windows else ["wine"]
    with tempfile.TemporaryDirectory() as room:
        if words:
            os.environ.setdefault("WINEPREFIX", f"{tempfile.gettempdir()}/pigale-wine-{os.getuid()}")
        os.environ.setdefault("WINEDEBUG", "-all")
        folder = packing.unpack(path, room)
        # wine makes its folders at its first start, and says so
        subprocess.run([*words, f"{folder}/bin/pigale.exe", "count"], stdin=subprocess.DEVNULL, capture_output=True, check=False)
        # wine now and then fails to start one of many processes
        tries = 3 if words else 1
        wrong = answers.hold([*words, f"{folder}/bin/pigale.exe"], tries=tries)
        if on_windows:
            wrong += answers.hold_library(f"{folder}/bin/pigale.dll")
        elif not missing(f"{MINGW}-gcc"):
            made = compiled([f"{MINGW}-gcc"], "-O2", f"-I{folder}/include", f"{ROOT}/library/program.c", f"-L{folder}/lib",
                            f"{folder}/lib/libpigale.dll.a", "-o", f"{folder}/bin/caller.exe")
            wrong += answers.hold([*words, f"{folder}/bin/caller.exe"], "pigale.dll", tries) if made else 1
    return "native" if on_windows else "wine", wrong


def hold_macos(path):
    machine = os.path.basename(path).split("-")[1]
    if platform.system() != "Darwin" or platform.machine() != machine:
        return None, f"macOS on {machine}"
    with tempfile.TemporaryDirectory() as room:
        folder = packing.unpack(path, room)
        return "native", answers.hold([f"{folder}/bin/pigale"]) + answers.hold_library(f"{folder}/lib/libpigale.1.dylib")


def hold_source(path):
    """The C source, by gcc, and by clang with each access checked; by one of them where there is but one."""
    compilers = [it for it in ("gcc", "clang") if shutil.which(it)] or [it for it in ("cc",) if shutil.which(it)]
    if not compilers or missing("make"):
        return None, "make and a compiler of C"
    wrong = 0
    with tempfile.TemporaryDirectory() as room:
        running = []
        for compiler in compilers:
            folder = packing.unpack(path, f"{room}/{compiler}")
            flags = "-O2 -DPIGALE_CHECKED" if compiler == "clang" else "-O2"
            running.append((compiler, folder, subprocess.Popen(["make", "-s", "-C", folder, f"CC={compiler}", f"CFLAGS={flags}"])))
        for compiler, folder, it in running:
            wrong += 1 if it.wait() else answers.hold([f"{folder}/pigale"], f"the C source by {compiler}")
        program = own_program()
        if program and not wrong:
            # each call, and not the program alone
            wrong += subprocess.run([f"{ROOT}/tools/check_library", program, f"{running[0][1]}/libpigale.a"], check=False).returncode != 0
    return " and ".join(compilers), wrong


def own_program():
    """Returns the program that was built here, or else the released one for this machine; None where there is neither."""
    places = (f"{ROOT}/crates/pigale/out/pigale", f"{ROOT}/release/pigale-{platform.machine()}-linux")
    return next((it for it in places if os.path.exists(it) and not emulator(platform.machine())[1]), None)


def hold_module(path):
    """The module, by the scripts that the page and the package for npm have."""
    if missing("node"):
        return None, "node"
    ran = subprocess.run(["node", f"{ROOT}/npm/test.mjs", path], check=False)
    return "node", int(ran.returncode != 0)


def all_held(held):
    """Holds files side by side, each given by its name, its path and what holds it. Returns by name what that returns."""
    with ThreadPoolExecutor(min(4, os.cpu_count())) as pool:
        waiting = {name: pool.submit(hold, path) for name, path, hold in held}
    return {name: it.result() for name, it in waiting.items()}


def hold_page(_):
    """The page, in node and in Chromium; the released program's answers are compared with the page's."""
    program = own_program()
    if not program:
        return None, "a program"
    ran = subprocess.run([f"{ROOT}/tools/web", "--check", program], capture_output=True, text=True, check=False)
    if ran.returncode == 77:
        return None, "node or Chromium"
    print(ran.stdout, end="")
    by = [name for name, word in (("node", "the module in node: "), ("Chromium", "the page in Chromium: ")) if word in ran.stdout]
    return " and ".join(by), int(ran.returncode != 0)
