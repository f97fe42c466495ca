"""Puts the static library, and what C, cargo and Python need beside it, into one folder that needs no repository."""
import importlib.util
import os
import shutil
import subprocess

TOP = os.path.dirname(os.path.dirname(os.path.abspath(__file__)))
C, RUST, SYS, PYTHON = (os.path.join(TOP, "bindings", name) for name in ("c", "rust", "ras-sys", "python"))
VERSION = "0.1.0"
# The shared object's number grows when a call or a row changes what it means.
SONAME = "libras.so.0"

PC = f"""\
prefix=${{pcfiledir}}/../..
libdir=${{prefix}}/lib
includedir=${{prefix}}/include

Name: ras
Description: Lossless syntax trees for Rust, over a proved parser
Version: {VERSION}
Libs: -L${{libdir}} -lras
Cflags: -I${{includedir}}
"""

README = """\
lib/libras_c.a     the static library; a C program that links it also compiles src/heap.c, or has the three functions of its own
lib/libras.so      the shared object, which has them
lib/pkgconfig/     for `pkg-config --with-path=lib/pkgconfig`, or with PKG_CONFIG_PATH
include/ras.h      the calls
src/               heap.c, and the examples outline.c and rewrite.c
cargo/             the crate `ras = { path = "cargo/ras" }`, and ras-sys, which it links the library by
python/            the wheel: `pip install python/ras-*.whl`
"""


def share(archive, library):
    """Builds the shared object of an archive."""
    command = [os.environ.get("CC", "cc"), "-shared", "-fPIC", "-O2", f"-Wl,-soname,{SONAME}", "-o", library, os.path.join(C, "heap.c")]
    subprocess.run([*command, "-Wl,--whole-archive", archive, "-Wl,--no-whole-archive"], check=True)


def wheel(archive, folder):
    """Builds the wheel of the Python module into a folder."""
    spec = importlib.util.spec_from_file_location("backend", os.path.join(PYTHON, "backend.py"))
    backend = importlib.util.module_from_spec(spec)
    spec.loader.exec_module(backend)
    before = os.environ.get("RAS_C_DIR")
    os.environ["RAS_C_DIR"] = os.path.dirname(archive)
    try:
        return backend.build_wheel(folder)
    finally:
        os.environ.pop("RAS_C_DIR")
        if before is not None:
            os.environ["RAS_C_DIR"] = before


def distribute(archive, folder):
    """Makes the folder. It must not be there, or be empty."""
    os.makedirs(folder, exist_ok=True)
    if os.listdir(folder):
        raise FileExistsError(f"{folder} is not empty")
    lib, include, src = (os.path.join(folder, name) for name in ("lib", "include", "src"))
    for name in (os.path.join(lib, "pkgconfig"), include, src, os.path.join(folder, "python")):
        os.makedirs(name)
    shutil.copyfile(archive, os.path.join(lib, "libras_c.a"))
    share(os.path.join(lib, "libras_c.a"), os.path.join(lib, SONAME))
    os.symlink(SONAME, os.path.join(lib, "libras.so"))
    shutil.copyfile(os.path.join(C, "ras.h"), os.path.join(include, "ras.h"))
    for name in ("heap.c", "outline.c", "rewrite.c"):
        shutil.copyfile(os.path.join(C, name), os.path.join(src, name))
    for crate, source in (("ras", RUST), ("ras-sys", SYS)):
        shutil.copytree(source, os.path.join(folder, "cargo", crate), ignore=shutil.ignore_patterns("target", "tests"))
    shutil.copyfile(os.path.join(TOP, "LICENSE"), os.path.join(folder, "LICENSE"))
    wheel(os.path.join(lib, "libras_c.a"), os.path.join(folder, "python"))
    for name, text in ((os.path.join("lib", "pkgconfig", "ras.pc"), PC), ("VERSION", f"{VERSION}\n"), ("README", README)):
        with open(os.path.join(folder, name), "w", encoding="utf-8") as file:
            file.write(text)
