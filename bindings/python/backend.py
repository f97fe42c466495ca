"""Builds the wheel of this folder with no other package: the module, and the library as a shared object. Builds its sdist too.

The library is `libras_c.a` in the folder that RAS_C_DIR names, else in the repository's crates/ras_c/out, where `./run --lib` puts it. An
sdist has no library: who installs it names the folder by RAS_C_DIR.
"""
import base64
import gzip
import hashlib
import io
import os
import subprocess
import sysconfig
import tarfile
import tempfile
import zipfile

HERE = os.path.dirname(os.path.abspath(__file__))
NAME, VERSION = "ras", "0.1.0"
# As pyproject.toml has it, which Python 3.9 and 3.10 have no reader for.
CLASSIFIERS = [
    "Intended Audience :: Developers",
    "Operating System :: POSIX :: Linux",
    "Programming Language :: Python :: 3",
    "Programming Language :: Rust",
    "Topic :: Software Development :: Libraries",
    "Typing :: Typed",
]
HEAD = [
    ("Metadata-Version", "2.4"),
    ("Name", NAME),
    ("Version", VERSION),
    ("Summary", "Lossless syntax trees for Rust, over a proved parser"),
    ("Keywords", "rust,parser,syntax,lossless,ast"),
    *(("Classifier", it) for it in CLASSIFIERS),
    ("License-Expression", "MIT"),
    ("License-File", "LICENSE"),
    ("Requires-Python", ">=3.9"),
    ("Description-Content-Type", "text/markdown"),
]
# What an sdist has beside this script, and the repository elsewhere.
OUTSIDE = {"c/heap.c": "../c/heap.c", "c/ras.h": "../c/ras.h", "LICENSE": "../../LICENSE"}


def path_of(name):
    """The path of a file that may be outside of this folder."""
    here = os.path.join(HERE, name)
    return here if os.path.exists(here) else os.path.join(HERE, OUTSIDE[name])


def data_of(path):
    with open(path, "rb") as file:
        return file.read()


def metadata():
    """The description of the package, as both the wheel and the sdist have it."""
    head = "".join(f"{name}: {value}\n" for name, value in HEAD)
    return f"{head}\n".encode() + data_of(os.path.join(HERE, "README.md"))


def modules():
    """The files of the module, by their names in it."""
    names = ["__init__.py", "__init__.pyi", "_raw.py", "py.typed"]
    names += [f"ast/{it}" for it in sorted(os.listdir(os.path.join(HERE, "ras", "ast"))) if it.endswith(".py")]
    return {f"ras/{name}": os.path.join(HERE, "ras", name) for name in names}


def shared_object(folder):
    """The library as a shared object in a folder."""
    named, out = os.environ.get("RAS_C_DIR"), os.path.join(HERE, "..", "..", "crates", "ras_c", "out")
    archive = os.path.join(named or out, "libras_c.a")
    if not os.path.exists(archive):
        where = f"not in {named}, which RAS_C_DIR names" if named else "not part of its sources"
        how = "`./run --lib` in the repository of ras builds it in crates/ras_c/out, and `./run --lib --dist DIR` in DIR/lib, beside a wheel"
        raise SystemExit(f"ras needs the library libras_c.a, which is {where}: {how}. Name the folder that has it by RAS_C_DIR, and install again.")
    out = os.path.join(folder, "libras.so")
    heap = path_of("c/heap.c")
    command = [os.environ.get("CC", "cc"), "-shared", "-fPIC", "-O2", "-o", out, heap, "-Wl,--whole-archive", archive, "-Wl,--no-whole-archive"]
    subprocess.run(command, check=True)
    return out


def prepare_metadata_for_build_wheel(metadata_directory, config_settings=None):
    info = f"{NAME}-{VERSION}.dist-info"
    os.makedirs(os.path.join(metadata_directory, info), exist_ok=True)
    with open(os.path.join(metadata_directory, info, "METADATA"), "wb") as file:
        file.write(metadata())
    return info


def build_wheel(wheel_directory, config_settings=None, metadata_directory=None):
    tag = f"py3-none-{sysconfig.get_platform().replace('-', '_').replace('.', '_')}"
    info = f"{NAME}-{VERSION}.dist-info"
    with tempfile.TemporaryDirectory() as folder:
        files = {**modules(), "ras/libras.so": shared_object(folder)}
        parts = {name: data_of(path) for name, path in files.items()}
    parts[f"{info}/METADATA"] = metadata()
    parts[f"{info}/WHEEL"] = f"Wheel-Version: 1.0\nGenerator: {NAME}\nRoot-Is-Purelib: false\nTag: {tag}\n".encode()
    parts[f"{info}/licenses/LICENSE"] = data_of(path_of("LICENSE"))
    digest = lambda data: base64.urlsafe_b64encode(hashlib.sha256(data).digest()).rstrip(b"=").decode()
    record = "".join(f"{name},sha256={digest(data)},{len(data)}\n" for name, data in parts.items())
    parts[f"{info}/RECORD"] = (record + f"{info}/RECORD,,\n").encode()
    wheel = f"{NAME}-{VERSION}-{tag}.whl"
    with zipfile.ZipFile(os.path.join(wheel_directory, wheel), "w", zipfile.ZIP_DEFLATED) as out:
        for name, data in parts.items():
            out.writestr(name, data)
    return wheel


def build_sdist(sdist_directory, config_settings=None):
    """The module, this script and what it reads, but for the library. The same sources make the same bytes."""
    parts = {name: data_of(os.path.join(HERE, name)) for name in ("backend.py", "pyproject.toml", "README.md")}
    parts.update({name: data_of(path_of(name)) for name in OUTSIDE})
    parts["PKG-INFO"] = metadata()
    parts.update({name: data_of(path) for name, path in modules().items()})
    sdist = f"{NAME}-{VERSION}.tar.gz"
    with open(os.path.join(sdist_directory, sdist), "wb") as file:
        with gzip.GzipFile(filename="", fileobj=file, mode="wb", mtime=0) as packed, tarfile.open(fileobj=packed, mode="w", format=tarfile.PAX_FORMAT) as out:
            for name in sorted(parts):
                entry = tarfile.TarInfo(f"{NAME}-{VERSION}/{name}")
                entry.size = len(parts[name])
                out.addfile(entry, io.BytesIO(parts[name]))
    return sdist


def get_requires_for_build_wheel(config_settings=None):
    return []


def get_requires_for_build_sdist(config_settings=None):
    return []
