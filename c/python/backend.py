"""Builds the wheel: compiles the module of src over the archive of dist for this machine, with heap.c.

It needs a C compiler, CC or cc, Python's own headers, and nothing from a network. SLOTMAP_ARCHIVE names another archive. The folder
dist, heap.c and slotmap.h are in the folder above, as in the repository, or in this one, as in a source distribution.

    python3 backend.py MACHINE FOLDER

builds the wheel for another machine too, x86_64 or aarch64, with the tag of any Linux whose glibc is 2.17 or newer. Its bytes depend
on the compiler and the headers, and on nothing else.

    python3 backend.py sdist FOLDER

builds the source distribution, which has the archives of both machines. Its bytes depend on Python's zlib alone.
"""

import base64
import gzip
import hashlib
import io
import os
import platform
import shlex
import subprocess
import sys
import sysconfig
import tarfile
import tempfile
import zipfile

NAME, VERSION = "slotmap_proved", "0.7.0"
HERE = os.path.dirname(os.path.abspath(__file__))
BESIDE = HERE if os.path.exists(os.path.join(HERE, "slotmap.h")) else os.path.dirname(HERE)
MACHINES = "x86_64", "aarch64"
SOURCES = "module.c", "iterator.c", "arguments.c", "table.c"
HEADERS = "iterator.h", "arguments.h", "table.h"
INFO = f"{NAME}-{VERSION}.dist-info"
METADATA = f"""Metadata-Version: 2.4
Name: slotmap-proved
Version: {VERSION}
Summary: A slot map of objects, whose keys are made and retired by proved code
License-Expression: MIT AND LicenseRef-Rattle-Std
License-File: LICENSE
License-File: LICENSE-slotmap
License-File: LICENSE-archives
Author: the Sevlurga maintainers
Keywords: slotmap,arena,handles,verified
Project-URL: The Rust crate, https://crates.io/crates/slotmap
Classifier: Development Status :: 4 - Beta
Classifier: Intended Audience :: Developers
Classifier: Operating System :: POSIX :: Linux
Classifier: Programming Language :: C
Classifier: Programming Language :: Python :: 3 :: Only
Classifier: Programming Language :: Python :: 3.9
Classifier: Programming Language :: Python :: 3.10
Classifier: Programming Language :: Python :: 3.11
Classifier: Programming Language :: Python :: 3.12
Classifier: Programming Language :: Python :: 3.13
Classifier: Programming Language :: Python :: Implementation :: CPython
Classifier: Topic :: Software Development :: Libraries
Classifier: Typing :: Typed
Requires-Python: >=3.9
Description-Content-Type: text/markdown

"""


# A Python without the interpreter's lock has no stable interface: there the module is one for this version alone.
LOCKED = not sysconfig.get_config_var("Py_GIL_DISABLED")
MODULE = "_tables.abi3.so" if LOCKED else "_tables" + str(sysconfig.get_config_var("EXT_SUFFIX"))
PYTHON = "cp39-abi3" if LOCKED else "cp{0}{1}-cp{0}{1}t".format(*sys.version_info)


def archive_of(machine: str) -> "tuple[str, ...]":
    return "dist", f"{machine}-linux", "libslotmap_c.a"


def compiled(machine: str) -> bytes:
    archive = os.environ.get("SLOTMAP_ARCHIVE") or (os.path.join(BESIDE, *archive_of(machine)) if sys.platform == "linux" else "")
    if not os.path.exists(archive):
        raise FileNotFoundError(f"there is no archive for {sys.platform} on {machine}; SLOTMAP_ARCHIVE names one")
    with tempfile.TemporaryDirectory() as folder:
        out, exports = os.path.join(folder, "module.so"), os.path.join(folder, "exports")
        with open(exports, "w") as file:
            file.write("{ global: PyInit__tables; local: *; };")
        command = shlex.split(os.environ.get("CC", "cc")) + ["-std=c11", "-O2", "-fPIC", "-shared", "-s", "-Wl,--build-id=none"]
        command += ["-DPy_LIMITED_API=0x03090000"] if LOCKED else []
        command += [f"-I{sysconfig.get_path('include')}", f"-I{BESIDE}", f"-Wl,--version-script={exports}", "-o", out]
        command += [os.path.join(HERE, "src", name) for name in SOURCES] + [os.path.join(BESIDE, "heap.c"), archive]
        try:
            subprocess.run(command, check=True)
        except FileNotFoundError:
            raise FileNotFoundError(f"{command[0]}: there is no such C compiler; CC names another") from None
        with open(out, "rb") as file:
            return file.read()


def read(folder: str, *path: str) -> bytes:
    with open(os.path.join(folder, *path), "rb") as file:
        return file.read()


def metadata() -> bytes:
    return METADATA.encode() + read(HERE, "README.md")


def contents(machine: str, tag: str) -> "dict[str, bytes]":
    files = {f"{NAME}/{MODULE}": compiled(machine)}
    for name in ("__init__.py", "_tables.pyi", "py.typed"):
        files[f"{NAME}/{name}"] = read(HERE, NAME, name)
    for name in ("LICENSE", "LICENSE-slotmap", "LICENSE-archives"):
        files[f"{INFO}/licenses/{name}"] = read(BESIDE, name)
    files[f"{INFO}/METADATA"] = metadata()
    tags = "".join(f"Tag: {PYTHON}-{one}\n" for one in tag.split("."))
    files[f"{INFO}/WHEEL"] = f"Wheel-Version: 1.0\nGenerator: backend.py\nRoot-Is-Purelib: false\n{tags}".encode()
    return files


def record(files: "dict[str, bytes]") -> str:
    lines = []
    for name, data in files.items():
        digest = base64.urlsafe_b64encode(hashlib.sha256(data).digest()).rstrip(b"=").decode()
        lines.append(f"{name},sha256={digest},{len(data)}\n")
    return "".join(lines) + f"{INFO}/RECORD,,\n"


def write_wheel(folder: str, machine: str, tag: str) -> str:
    name, files = f"{NAME}-{VERSION}-{PYTHON}-{tag}.whl", contents(machine, tag)
    files[f"{INFO}/RECORD"] = record(files).encode()
    with zipfile.ZipFile(os.path.join(folder, name), "w") as wheel:
        for path, data in files.items():
            entry = zipfile.ZipInfo(path, (1980, 1, 1, 0, 0, 0))
            entry.external_attr = 0o100644 << 16
            wheel.writestr(entry, data)
    return name


def build_wheel(wheel_directory, config_settings=None, metadata_directory=None) -> str:
    machine = platform.machine()
    return write_wheel(wheel_directory, machine, f"linux_{machine}")


def prepare_metadata_for_build_wheel(metadata_directory, config_settings=None) -> str:
    os.mkdir(os.path.join(metadata_directory, INFO))
    with open(os.path.join(metadata_directory, INFO, "METADATA"), "wb") as file:
        file.write(metadata())
    return INFO


def build_sdist(sdist_directory, config_settings=None) -> str:
    files = {"PKG-INFO": metadata()}
    for name in "pyproject.toml", "backend.py", "README.md":
        files[name] = read(HERE, name)
    for name in SOURCES + HEADERS:
        files[f"src/{name}"] = read(HERE, "src", name)
    for name in ("__init__.py", "_tables.pyi", "py.typed"):
        files[f"{NAME}/{name}"] = read(HERE, NAME, name)
    for path in [("LICENSE",), ("LICENSE-slotmap",), ("LICENSE-archives",), ("slotmap.h",), ("heap.c",), *map(archive_of, MACHINES)]:
        files["/".join(path)] = read(BESIDE, *path)
    name, packed = f"{NAME}-{VERSION}", io.BytesIO()
    with tarfile.open(fileobj=packed, mode="w", format=tarfile.PAX_FORMAT) as archive:
        for path, data in files.items():
            entry = tarfile.TarInfo(f"{name}/{path}")
            entry.size, entry.mtime = len(data), 315532800
            archive.addfile(entry, io.BytesIO(data))
    with open(os.path.join(sdist_directory, f"{name}.tar.gz"), "wb") as file:
        file.write(gzip.compress(packed.getvalue(), mtime=0))
    return f"{name}.tar.gz"


if __name__ == "__main__":
    _, target, where = sys.argv
    print(build_sdist(where) if target == "sdist" else write_wheel(where, target, f"manylinux2014_{target}.manylinux_2_17_{target}"))
