"""The build backend of the package: it needs only Python's own library, so that `pip install bindings/python` needs no network.

On Linux for x86-64 with the GNU C library the wheel has the shared library that the repository keeps built, whose archive is proved.
Elsewhere, or with STAR_CLIENT_PORTABLE=1, a C compiler ($CC, or cc) builds one from bindings/portable, which is tested.
"""
import base64
import hashlib
import io
import os
import platform
import subprocess
import sys
import sysconfig
import tarfile
import tempfile
import zipfile

HERE = os.path.dirname(os.path.abspath(__file__))
NAME, VERSION = "star_client", "1.0.0"
METADATA = ("Metadata-Version: 2.1\nName: star_client\nVersion: 1.0.0\nSummary: The client of Nested STAR, proved: one report of one client\n"
            "Requires-Python: >=3.9\n")
SOURCES = ["__init__.py", "_normal.py", "py.typed"]
PORTABLE = ["portable/star_client_portable.c", "portable/module.c", "portable/star_client_portable.h", "portable/module.h", "portable/wasm-rt.h",
            "c/star_client.h"]
KEPT = "c/lib/x86_64-linux/libstar_client.so"


def file_of(path):
    """A file of bindings: in a clone beside this folder, in a source distribution in `bindings` in it."""
    inside = os.path.join(HERE, "bindings", path)
    return inside if os.path.exists(inside) else os.path.join(HERE, "..", path)


def takes_kept():
    """Whether the library that is kept built runs here."""
    return (sys.platform == "linux" and platform.machine() in ("x86_64", "AMD64") and sys.maxsize > 2**32 and platform.libc_ver()[0] == "glibc"
            and os.environ.get("STAR_CLIENT_PORTABLE") != "1")


def compiled(folder):
    """Compiles the portable client into the folder, and returns the library's path."""
    ending = {"win32": "dll", "darwin": "dylib"}.get(sys.platform, "so")
    made = os.path.join(folder, "star_client.dll" if ending == "dll" else "libstar_client." + ending)
    words = os.environ.get("CC", "cc").split() + ["-std=c11", "-O2", "-w", "-shared", "-o", made, "-I" + os.path.dirname(file_of("c/star_client.h"))]
    words += [] if sys.platform == "win32" else ["-fPIC"]
    try:
        done = subprocess.run(words + [file_of(path) for path in PORTABLE[:2]], capture_output=True, text=True)
    except OSError:
        done = None
    if done is None or done.returncode:
        sys.exit("star_client: no library is kept built for %s, so a C11 compiler has to make one: install gcc or clang, or name one by CC%s"
                 % (sysconfig.get_platform(), "" if done is None else "\n" + done.stderr[-2000:]))
    return made


def tag():
    platform_tag = "manylinux2014_x86_64" if takes_kept() else sysconfig.get_platform().replace("-", "_").replace(".", "_")
    return "py3-none-" + platform_tag


def read(path):
    with open(path, "rb") as file:
        return file.read()


def records_of(files, info):
    digest = lambda data: base64.urlsafe_b64encode(hashlib.sha256(data).digest()).rstrip(b"=").decode()
    lines = ["%s,sha256=%s,%d" % (name, digest(data), len(data)) for name, data in files]
    return "\n".join(lines + [info + "/RECORD,,"]) + "\n"


def build_wheel(wheel_directory, config_settings=None, metadata_directory=None):
    info = "%s-%s.dist-info" % (NAME, VERSION)
    files = [("%s/%s" % (NAME, name), read(os.path.join(HERE, NAME, name))) for name in SOURCES]
    with tempfile.TemporaryDirectory() as folder:
        library = file_of(KEPT) if takes_kept() else compiled(folder)
        files.append(("%s/%s" % (NAME, os.path.basename(library)), read(library)))
    wheel = "Wheel-Version: 1.0\nGenerator: star_client\nRoot-Is-Purelib: false\nTag: %s\n" % tag()
    files += [(info + "/METADATA", METADATA.encode()), (info + "/WHEEL", wheel.encode())]
    files.append((info + "/RECORD", records_of(files, info).encode()))
    name = "%s-%s-%s.whl" % (NAME, VERSION, tag())
    with zipfile.ZipFile(os.path.join(wheel_directory, name), "w", zipfile.ZIP_DEFLATED) as archive:
        for path, data in files:
            entry = zipfile.ZipInfo(path, (2026, 1, 1, 0, 0, 0))
            entry.external_attr = 0o100644 << 16
            archive.writestr(entry, data, zipfile.ZIP_DEFLATED)
    return name


def build_sdist(sdist_directory, config_settings=None):
    front = "%s-%s" % (NAME, VERSION)
    files = [(name, read(os.path.join(HERE, name))) for name in ["pyproject.toml", "backend.py"] + ["%s/%s" % (NAME, it) for it in SOURCES]]
    files += [("bindings/" + path, read(file_of(path))) for path in PORTABLE + [KEPT]]
    files.append(("PKG-INFO", METADATA.encode()))
    with tarfile.open(os.path.join(sdist_directory, front + ".tar.gz"), "w:gz", format=tarfile.PAX_FORMAT) as archive:
        for path, data in files:
            entry = tarfile.TarInfo("%s/%s" % (front, path))
            entry.size = len(data)
            archive.addfile(entry, io.BytesIO(data))
    return front + ".tar.gz"
