"""Packs folders into archives, and unpacks them. The same files give the same bytes, whenever and by whomever they are packed."""
import io
import lzma
import os
import stat
import tarfile
import zipfile

DATE = (2026, 1, 1, 0, 0, 0)  # of each file in an archive
SECONDS = 1767225600  # the same, since 1970


def files_below(folder):
    """Yields the paths below a folder, in order, and relative to it: of files, and of links to files."""
    for at, folders, names in sorted(os.walk(folder)):
        folders.sort()
        for name in sorted(names):
            yield os.path.relpath(f"{at}/{name}", folder)


def mode_of(path):
    return 0o755 if os.stat(path).st_mode & stat.S_IXUSR else 0o644


def pack(folder, to):
    """Packs a folder under its own name: into a zip file or a tar file packed by xz, as the ending of `to` says."""
    (pack_zip if to.endswith(".zip") else pack_tar)(folder, to)


def pack_zip(folder, to):
    with zipfile.ZipFile(to, "w", zipfile.ZIP_DEFLATED, compresslevel=9) as file:
        for path in files_below(folder):
            entry = zipfile.ZipInfo(f"{os.path.basename(folder)}/{path}", DATE)
            entry.compress_type = zipfile.ZIP_DEFLATED
            entry.external_attr = (stat.S_IFREG | mode_of(f"{folder}/{path}")) << 16
            with open(f"{folder}/{path}", "rb") as content:
                file.writestr(entry, content.read())


def pack_tar(folder, to):
    whole = io.BytesIO()
    with tarfile.open(fileobj=whole, mode="w", format=tarfile.USTAR_FORMAT) as file:
        for path in files_below(folder):
            entry = file.gettarinfo(f"{folder}/{path}", f"{os.path.basename(folder)}/{path}")
            entry.uid = entry.gid = 0
            entry.uname = entry.gname = "root"
            entry.mtime = SECONDS
            entry.mode = 0o777 if entry.issym() else mode_of(f"{folder}/{path}")
            if entry.isreg():
                with open(f"{folder}/{path}", "rb") as content:
                    file.addfile(entry, content)
            else:
                file.addfile(entry)
    # a dictionary as long as the archive, so that what two libraries have in common is packed once
    filters = [{"id": lzma.FILTER_LZMA2, "preset": 9 | lzma.PRESET_EXTREME}]
    with lzma.open(to, "wb", format=lzma.FORMAT_XZ, filters=filters) as file:
        file.write(whole.getvalue())


def unpack(path, to):
    """Unpacks an archive into a folder, and returns the path of the folder that it has."""
    if path.endswith(".zip"):
        with zipfile.ZipFile(path) as file:
            file.extractall(to)
            names = file.namelist()
            for entry in file.infolist():
                os.chmod(f"{to}/{entry.filename}", entry.external_attr >> 16 & 0o777)
    else:
        with tarfile.open(path) as file:
            file.extractall(to)
            names = file.getnames()
    return f"{to}/{names[0].split('/')[0]}"
