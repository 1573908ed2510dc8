"""Makes what is packed of the library for each system: from what the kit built for Linux, and from its LLVM module.

For Windows and macOS the kit has no target. There the LLVM module that the kit's clang is given for Linux, on the same
processor, is compiled again for that system, with the same options, by the same clang. The memory of the library is
compiled to LLVM for Linux first and then goes the same way, so both sides agree on how a value of two words is returned. The
module for WebAssembly is made of it too."""
import glob
import os
import re
import shutil
import tempfile

import calls
from targets import LINUX, ROOT, WASM, call, tool

WEB = ("--enable-memory64", "--enable-bulk-memory", "--enable-mutable-globals", "--enable-sign-ext")
MINGW = "x86_64-w64-mingw32"
STACK = 1 << 20  # bytes of stack that the module sets aside: four times what the header says that a call may want


def linux_memory(machine, to, *kind):
    """Compiles the memory of the library for Linux on a processor, to an object or what else `kind` asks clang for.

    A thread's variable is found through a descriptor: that needs no name of a C library, and each loader has it."""
    descriptors = ["-mtls-dialect=gnu2"] if machine == "x86_64" else []
    call(tool("clang"), f"--target={LINUX[machine]}", "-O2", "-fPIC", "-fvisibility=hidden", "-ffreestanding", "-Wall", "-Werror",
         *descriptors, *(kind or ("-c",)), f"{ROOT}/library/memory.c", "-o", to)


def archive(to, kind, *objects):
    """Makes a static library, of GNU's kind or of Darwin's."""
    call(tool("llvm-ar"), f"--format={kind}", "rcsD", to, *objects)


def objects_of(built, room):
    """Returns the objects of the library's archive, taken out of it."""
    os.makedirs(room)
    call(tool("llvm-ar"), "x", f"{built.folder}/library.a", cwd=room)
    return sorted(glob.glob(f"{room}/*"))


def linux_library(built, to):
    """Makes what is packed for Linux in a folder: the static and the shared library. They ask for no version of any C library:
    what the shared one calls is found in the program that loads it."""
    lib = with_common(to)
    linux_memory(built.machine, f"{built.folder}/memory.o")
    parts = [*objects_of(built, f"{built.folder}/objects"), f"{built.folder}/memory.o"]
    archive(f"{lib}/libpigale.a", "gnu", *parts)
    call(tool("ld.lld"), "-shared", "-soname", "libpigale.so.1", "-Bsymbolic", "--version-script", f"{ROOT}/library/exports.map",
         "--gc-sections", "-s", "-z", "noexecstack", "-z", "relro", "-z", "now", *parts, "-o", f"{lib}/libpigale.so.1")
    os.symlink("libpigale.so.1", f"{lib}/libpigale.so")


def with_common(to):
    """Makes a folder with what each system has: the header, the text for pkg-config, the licence; returns its folder `lib`."""
    for it in ("include", "lib/pkgconfig"):
        os.makedirs(f"{to}/{it}")
    shutil.copy(f"{ROOT}/include/pigale.h", f"{to}/include")
    shutil.copy(f"{ROOT}/library/pigale.pc", f"{to}/lib/pkgconfig")
    shutil.copy(f"{ROOT}/LICENSE", to)
    return f"{to}/lib"


def foreign_objects(built, target, room):
    """Compiles the module of the library, and its memory, for a system that the kit has no target for."""
    os.makedirs(room)
    clang = tool("clang")
    call(clang, "-S", "-emit-llvm", "-x", "ir", "-Xclang", "-disable-llvm-passes", f"{built.folder}/input", "-w",
         "--no-default-config", "-o", f"{room}/module.ll")
    # variables of threads are another matter on each system
    linux_memory(built.machine, f"{room}/memory.ll", "-S", "-emit-llvm", "-DPLAIN")
    options = [it for it in built.options() if it not in ("-fPIC", "-fPIE")] + ["-w", "-O3"]
    if not target.endswith("windows-gnu"):
        options.append("-fPIC")
    adapt(f"{room}/module.ll", target)
    for name in ("module", "memory"):
        call(clang, *options, f"--target={target}", f"{room}/{name}.ll", "-o", f"{room}/{name}.o")
    return [f"{room}/module.o", f"{room}/memory.o"]


def adapt(path, target):
    """Changes in the text of a module what another system has otherwise than Linux.

    On macOS who calls may rely on that a result of 8 or 16 bits fills 32. For Windows a probe of the stack that is written out
    goes: the target's own comes in its place."""
    exports = re.compile(rf"^(define (?!.*\bzeroext\b)[^@]*)(\bi(?:8|16) @(?:{'|'.join(calls.names())})\()")
    with open(path, encoding="utf-8", errors="surrogateescape") as file, open(f"{path}.new", "w", encoding="utf-8", errors="surrogateescape") as to:
        for line in file:
            if line.startswith("define"):
                line = exports.sub(r"\1zeroext \2", line)
            elif target.endswith("windows-gnu") and line.startswith("attributes"):
                line = line.replace('"probe-stack"="inline-asm"', "")
            to.write(line)
    os.replace(f"{path}.new", path)


def windows(built, to):
    """Makes what is packed for Windows in a folder, by the compiler mingw-w64: the program, and both libraries."""
    with tempfile.TemporaryDirectory() as room:
        parts = foreign_objects(built, "x86_64-pc-windows-gnu", f"{room}/objects")
        lib, program = with_common(to), f"{to}/bin"
        os.makedirs(program)
        archive(f"{lib}/libpigale.a", "gnu", *parts)
        with open(f"{lib}/pigale.def", "w", encoding="utf-8") as file:
            file.write("LIBRARY pigale.dll\nEXPORTS\n" + "".join(f"    {name}\n" for name in calls.names()))
        how = ["-Wl,--gc-sections", "-Wl,--no-insert-timestamp", "-static-libgcc", "-s"]
        # by itself the linker takes a base by the path that it writes to, and two builds would differ
        call(f"{MINGW}-gcc", *how, "-shared", "-Wl,--image-base,0x180000000", *parts, f"{lib}/pigale.def", f"-Wl,--out-implib,{lib}/libpigale.dll.a", "-o", f"{program}/pigale.dll")
        call(f"{MINGW}-gcc", *how, "-O2", "-Wall", "-Werror", f"-I{ROOT}/include", f"{ROOT}/library/program.c", *parts, "-o", f"{program}/pigale.exe")


def macos(built, to):
    """Makes what is packed for macOS 11 in a folder, by the kit's own linker: the program, and both libraries."""
    processor = {"aarch64": "arm64"}.get(built.machine, built.machine)
    target = f"{processor}-apple-macos11"
    with tempfile.TemporaryDirectory() as room:
        parts = foreign_objects(built, target, f"{room}/objects")
        lib, program = with_common(to), f"{to}/bin"
        os.makedirs(program)
        archive(f"{lib}/libpigale.a", "darwin", *parts)
        link = [tool("ld.lld"), "-flavor", "darwin", "-arch", processor, "-platform_version", "macos", "11.0", "11.0", "-dead_strip", "-S", "-x"]
        system = f"{ROOT}/library/libSystem.tbd"
        call(*link, "-dylib", "-install_name", "@rpath/libpigale.1.dylib", "-exported_symbol", "_pigale_*", *parts, system,
             "-o", f"{lib}/libpigale.1.dylib")
        os.symlink("libpigale.1.dylib", f"{lib}/libpigale.dylib")
        headers = call("gcc", "-print-file-name=include").strip()
        call(tool("clang"), f"--target={target}", "-O2", "-ffreestanding", "-Wall", "-Werror", "-isystem", headers, f"-I{ROOT}/include",
             "-c", f"{ROOT}/library/program.c", "-o", f"{room}/program.o")
        call(*link, "-e", "_main", f"{room}/program.o", *parts, system, "-o", f"{program}/pigale")


def module(built, to):
    """Makes the WebAssembly module of the library from what clang was given for Linux."""
    with tempfile.TemporaryDirectory() as room:
        call(tool("clang"), f"--target={WASM}", "-O2", "-w", "-c", "-x", "ir", f"{built.folder}/input", "-o", f"{room}/module.o")
        link_module([f"{room}/module.o"], to)


def link_module(parts, to):
    """Links objects for WebAssembly with 64-bit addresses to a module with all calls, and lowers its addresses to 32 bits."""
    with tempfile.TemporaryDirectory() as room:
        call(tool("clang"), f"--target={WASM}", "-O2", "-Wall", "-mbulk-memory", "-fno-builtin", "-c",
             f"{ROOT}/web/src/memory.c", "-o", f"{room}/memory.o")
        exports = [f"--export={it}" for it in (*calls.names(), "memory_for", "memory_back")]
        call(tool("ld.lld"), "-flavor", "wasm", "-mwasm64", "--no-entry", "--gc-sections", "--stack-first", "-z", f"stack-size={STACK}",
             *exports, *parts, f"{room}/memory.o", "-o", f"{room}/wide.wasm")
        # 64-bit memories are of late browsers only
        call("wasm-opt", "--memory64-lowering", *WEB, "-O1", "--strip-debug", "--strip-producers", f"{room}/wide.wasm", "-o", to)
