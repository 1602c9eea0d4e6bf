"""Builds the module quic_wire._wire with the library quic_wire, the first of these that exists:

- libquic_wire.a in the folder that QUIC_WIRE_LIB names
- the library as C, as scripts/make/portable leaves it, in the folder that QUIC_WIRE_PORTABLE names, or in `portable` beside
  this file: any machine with a C compiler and 64-bit integers builds it

A wheel also has the program quic-wire if QUIC_WIRE_PROGRAM names its file.

The module uses the limited API of CPython 3.11, so that one wheel serves 3.11 and later. An interpreter without its
lock has another API, and a separate wheel.
"""

import os
import pathlib
import shutil
import sys
import sysconfig
import tempfile

from setuptools import Extension, setup
from setuptools.command.build_ext import build_ext
from setuptools.errors import CompileError

# That of setuptools, which therefore comes first.
from distutils.command.build_scripts import build_scripts  # isort: skip

HERE = pathlib.Path(__file__).resolve().parent
LIMITED_API = "0x030b0000"
IS_LIMITED = not sysconfig.get_config_var("Py_GIL_DISABLED")
COMPILE = [] if os.name == "nt" else ["-O2", "-fvisibility=hidden", "-ffunction-sections", "-g0"]
# The library's own symbols stay inside the module, and what it doesn't call stays out. Addresses are bound when it is
# loaded, and can't be written afterwards.
LINK = ["-Wl,--exclude-libs,ALL", "-Wl,--gc-sections", "-Wl,-z,relro,-z,now"] if sys.platform == "linux" else []
NO_LIBRARY = (
    "setup.py: no library: set QUIC_WIRE_LIB to the folder of libquic_wire.a, or QUIC_WIRE_PORTABLE to what "
    "scripts/make/portable made (README.md, Building)"
)
PORTABLE = ("quic_wire_proved.c", "quic_wire.c", "texts.c")


def named(variable, file):
    """The folder that a variable names, which must have a file; None if the variable isn't set."""
    folder = os.environ.get(variable)
    if not folder:
        return None
    if not (pathlib.Path(folder) / file).is_file():
        fault = f"has no {file}" if pathlib.Path(folder).is_absolute() else "isn't an absolute path"
        sys.exit(f"setup.py: {variable} names {folder}, which {fault}")
    return pathlib.Path(folder).resolve()


LIB = named("QUIC_WIRE_LIB", "libquic_wire.a")
AS_C = None if LIB else named("QUIC_WIRE_PORTABLE", "src/quic_wire_proved.c") or HERE / "portable"


def include():
    """The folder of quic_wire.h: beside the library, as installed, or where the repository has it."""
    folders = [AS_C / "include"] if AS_C else [LIB / "include", LIB.parent / "include"]
    for folder in (*folders, HERE / "include", HERE.parent / "c" / "include"):
        if (folder / "quic_wire.h").is_file():
            return str(folder)
    return str(folders[0])


def programs():
    """The file that QUIC_WIRE_PROGRAM names, if it names one."""
    file = os.environ.get("QUIC_WIRE_PROGRAM")
    if file and not (pathlib.Path(file).is_absolute() and pathlib.Path(file).is_file()):
        sys.exit(f"setup.py: QUIC_WIRE_PROGRAM must be the absolute path of a file: {file}")
    return [file] if file else []


class CopyPrograms(build_scripts):
    """Copies programs as they are: setuptools takes them for texts, and would also add them to the source package."""

    def copy_scripts(self):
        self.mkpath(self.build_dir)
        for file in self.scripts:
            self.copy_file(file, self.build_dir)

    def get_source_files(self):
        return []


def does_compile(compiler, folders):
    """Whether a compiler finds what it needs itself, such as the headers of the C library."""
    with tempfile.TemporaryDirectory() as folder:
        file = pathlib.Path(folder) / "probe.c"
        file.write_text("#include <Python.h>\n#include <stdlib.h>\n")
        try:
            compiler.compile([str(file)], output_dir=folder, include_dirs=folders)
        except CompileError:
            return False
    return True


def lacking(compiler, folders):
    """What a machine lacks to build the module, and how to get it; None if nothing."""
    if not any((pathlib.Path(folder) / "Python.h").is_file() for folder in folders):
        return "Python.h is missing: install Python's headers (Debian's python3-dev; Fedora: python3-devel)"
    command = getattr(compiler, "compiler_so", None)
    if command and not shutil.which(command[0]):
        return f"the C compiler {command[0]} isn't on the path: install one (Debian's gcc and libc6-dev; Fedora: gcc)"
    if not does_compile(compiler, folders):
        return (
            "the C compiler can't compile a file that includes Python.h and stdlib.h: install the headers of the C "
            "library (Debian's libc6-dev; Fedora: glibc-devel)"
        )
    return None


class BuildWithLibrary(build_ext):
    """Builds the library as C first, if no archive is named."""

    def build_extensions(self):
        fault = lacking(self.compiler, self.include_dirs)
        if fault:
            sys.exit(f"setup.py: {fault}")
        super().build_extensions()

    def build_extension(self, ext):
        if AS_C:
            sources = [AS_C / "src" / name for name in PORTABLE]
            if not sources[0].is_file():
                sys.exit(NO_LIBRARY)
            ext.extra_objects = self.compiler.compile(
                [str(source) for source in sources],
                output_dir=self.build_temp,
                include_dirs=[include(), str(AS_C / "src")],
                extra_postargs=COMPILE,
            )
        super().build_extension(ext)


WIRE = Extension(
    "quic_wire._wire",
    sorted(str(path.relative_to(HERE)) for path in (HERE / "wire").glob("*.c")),
    include_dirs=[include()],
    extra_objects=[str(LIB / "libquic_wire.a")] if LIB else [],
    define_macros=[("Py_LIMITED_API", LIMITED_API)] if IS_LIMITED else [],
    extra_compile_args=COMPILE,
    extra_link_args=LINK,
    depends=["wire/wire.h", "wire/formats.h", "wire/docs.h"],
    py_limited_api=IS_LIMITED,
)

setup(
    ext_modules=[WIRE],
    scripts=programs(),
    cmdclass={"build_ext": BuildWithLibrary, "build_scripts": CopyPrograms},
    options={"bdist_wheel": {"py_limited_api": "cp311"}} if IS_LIMITED else {},
)
