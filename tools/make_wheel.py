#!/usr/bin/env python3
"""Makes wheels of the Python package pigale, each with the released program and library for one system inside, and the sdist.

  tools/make_wheel.py [FOLDER]   a wheel for each system of release/, and the source distribution, by default into out/

`pip install .` in a clone makes and installs the one for its machine: pyproject.toml names this file as what builds. Nothing is
downloaded. For another machine the library is compiled of release/pigale-c.tar.xz, which is what the source distribution has;
without a compiler of C the wheel has neither, and the package then finds the program by PIGALE or on the path. The same
release gives the same bytes.
"""
import base64
import gzip
import hashlib
import io
import os
import platform
import re
import shutil
import subprocess
import sys
import sysconfig
import tarfile
import tempfile
import zipfile

sys.path.insert(0, os.path.dirname(os.path.abspath(__file__)))
import packing  # noqa: E402

ROOT = os.path.dirname(os.path.dirname(os.path.abspath(__file__)))
PACKAGE = os.path.join(ROOT, "python", "pigale")
RELEASE = os.path.join(ROOT, "release")
SOURCE = "pigale-c.tar.xz"
# each system, by what Python calls it: the tags of its wheel, what is unpacked, and the paths of its library and program there
SYSTEMS = {
    **{("linux", it): (f"manylinux_2_17_{it}.musllinux_1_1_{it}", f"libpigale-{it}-linux.tar.xz", "lib/libpigale.so.1", None)
       for it in ("x86_64", "aarch64")},
    **{("darwin", it): (f"macosx_11_0_{it}", f"pigale-{it}-macos.tar.xz", "lib/libpigale.1.dylib", "bin/pigale") for it in ("x86_64", "arm64")},
    ("windows", "AMD64"): ("win_amd64", "pigale-x86_64-windows.zip", "bin/pigale.dll", "bin/pigale.exe"),
}
LIBRARIES = {"darwin": "libpigale.dylib", "windows": "pigale.dll"}  # what the package calls its library, where not libpigale.so


def content(*path):
    with open(os.path.join(ROOT, *path), "rb") as file:
        return file.read()


def project(word):
    """What pyproject.toml says for a word, of one line."""
    return re.search(f'^{word} = "(.*)"$', content("pyproject.toml").decode(), re.MULTILINE).group(1)


def own_system():
    return platform.system().lower(), platform.machine()


def program_name(system, machine):
    """What the package calls the program for a system."""
    return f"pigale-{machine}-{system}" + (".exe" if system == "windows" else "")


def released(key):
    """The program and the library of release/ for a system, as name and bytes; none where it has not both."""
    _, archive, library, program = SYSTEMS[key]
    own = os.path.join(RELEASE, program_name(*key))
    if not os.path.exists(os.path.join(RELEASE, archive)) or not (program or os.path.exists(own)):
        return []
    with tempfile.TemporaryDirectory() as room:
        folder = packing.unpack(os.path.join(RELEASE, archive), room)
        paths = ((program_name(*key), os.path.join(folder, program) if program else own), (library_name(key[0]), os.path.join(folder, library)))
        return [(name, content(path)) for name, path in paths]


def library_name(system):
    return LIBRARIES.get(system, "libpigale.so")


def compiled():
    """The program and the library for this machine, compiled of the C source, as name and bytes; none without a compiler."""
    compiler = (os.environ.get("CC") or sysconfig.get_config_var("CC") or "cc").split()
    compiler = compiler if shutil.which(compiler[0]) else ["cc"]
    if not os.path.exists(os.path.join(RELEASE, SOURCE)) or not shutil.which(compiler[0]) or platform.system() == "Windows":
        return []
    names = program_name(*own_system()), library_name(own_system()[0])
    with tempfile.TemporaryDirectory() as room:
        folder = packing.unpack(os.path.join(RELEASE, SOURCE), room)
        shared = "-dynamiclib" if platform.system() == "Darwin" else "-shared"
        for words in (["-O2", "-fPIC", "-c", "pigale.c"], ["-O2", "-o", names[0], "program.c", "pigale.o"], [shared, "-o", names[1], "pigale.o"]):
            subprocess.run([*compiler, *words], cwd=folder, check=True)
        return [(name, content(folder, name)) for name in names]


def metadata():
    """The text that an index shows."""
    lines = [f"Name: {project('name')}", f"Version: {project('version')}", f"Summary: {project('description')}", "License: MIT",
             f"Requires-Python: {project('requires-python')}", "Description-Content-Type: text/markdown"]
    return "\n".join(["Metadata-Version: 2.1", *lines, "", ""]).encode() + content("python", "README.md")


def entry_points():
    """What pyproject.toml names for the command line and for other packages, as a wheel says it."""
    found = re.findall(r'^\[project\.(?:scripts|entry-points\."([\w.]+)")\]\n((?:\w.*\n)+)', content("pyproject.toml").decode(), re.MULTILINE)
    return "\n".join(f"[{group or 'console_scripts'}]\n" + lines.replace('"', "") for group, lines in found)


def sources():
    """The files of the package, as path in the repository."""
    return [f"python/pigale/{name}" for name in sorted(os.listdir(PACKAGE)) if name.endswith((".py", ".json", ".typed"))]


def files(tags, binaries):
    """The files of a wheel, as path, bytes and whether it is a program, but for its record."""
    for path in sources():
        yield path[len("python/"):], content(path), False
    for name, data in binaries:
        yield f"pigale/{name}", data, True
    if binaries:
        yield "pigale/MANIFEST", content("release", "MANIFEST"), False
    about = f"pigale-{project('version')}.dist-info"
    yield f"{about}/METADATA", metadata(), False
    lines = "".join(f"Tag: py3-none-{part}\n" for part in tags.split("."))
    yield f"{about}/WHEEL", f"Wheel-Version: 1.0\nGenerator: pigale\nRoot-Is-Purelib: {str(not binaries).lower()}\n{lines}".encode(), False
    yield f"{about}/entry_points.txt", entry_points().encode(), False
    yield f"{about}/LICENSE", content("LICENSE"), False


def make(folder, tags, binaries):
    """Writes a wheel for systems with their program and library, or without them; returns its name."""
    os.makedirs(folder, exist_ok=True)
    name = f"pigale-{project('version')}-py3-none-{tags}.whl"
    record = []
    with zipfile.ZipFile(os.path.join(folder, name), "w", zipfile.ZIP_DEFLATED) as wheel:
        def put(path, data, is_program):
            entry = zipfile.ZipInfo(path)
            entry.external_attr = (0o100755 if is_program else 0o100644) << 16
            entry.compress_type = zipfile.ZIP_DEFLATED
            wheel.writestr(entry, data)

        for path, data, is_program in files(tags, binaries):
            put(path, data, is_program)
            digest = base64.urlsafe_b64encode(hashlib.sha256(data).digest()).rstrip(b"=").decode()
            record.append(f"{path},sha256={digest},{len(data)}\n")
        path = f"pigale-{project('version')}.dist-info/RECORD"
        put(path, "".join([*record, f"{path},,\n"]).encode(), False)
    return name


def build_wheel(wheel_directory, config_settings=None, metadata_directory=None):
    """Makes the wheel for this machine, as PEP 517 asks for it."""
    key = own_system()
    binaries = released(key) if key in SYSTEMS else []
    if binaries:
        return make(wheel_directory, SYSTEMS[key][0], binaries)
    binaries = compiled()
    return make(wheel_directory, re.sub(r"\W", "_", sysconfig.get_platform()) if binaries else "any", binaries)


def build_sdist(sdist_directory, config_settings=None):
    """Makes the source distribution, as PEP 517 asks for it: the package, and the library in C."""
    name = f"pigale-{project('version')}"
    paths = ["LICENSE", "pyproject.toml", "python/README.md", "release/MANIFEST", f"release/{SOURCE}", "tools/make_wheel.py", "tools/packing.py", *sources()]
    whole = io.BytesIO()
    with tarfile.open(fileobj=whole, mode="w", format=tarfile.USTAR_FORMAT) as file:
        for path, data in (("PKG-INFO", metadata()), *((path, content(path)) for path in paths)):
            entry = tarfile.TarInfo(f"{name}/{path}")
            entry.size, entry.mtime, entry.mode = len(data), packing.SECONDS, 0o755 if path == "tools/make_wheel.py" else 0o644
            file.addfile(entry, io.BytesIO(data))
    os.makedirs(sdist_directory, exist_ok=True)
    with open(os.path.join(sdist_directory, f"{name}.tar.gz"), "wb") as file:
        file.write(gzip.compress(whole.getvalue(), 9, mtime=0))
    return f"{name}.tar.gz"


def main(words):
    if len(words) > 1 or words in (["-h"], ["--help"]):
        sys.exit(__doc__)
    target = words[0] if words else os.path.join(ROOT, "out")
    for key in SYSTEMS:
        binaries = released(key)
        if binaries:
            print(os.path.join(target, make(target, SYSTEMS[key][0], binaries)))
    if os.path.exists(os.path.join(RELEASE, SOURCE)):
        print(os.path.join(target, build_sdist(target)))


if __name__ == "__main__":
    main(sys.argv[1:])
