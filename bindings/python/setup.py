"""Builds the package with the proved library in it, compiled from C: a C compiler is all that it takes.

The C stands in `native`. In the repository that is a copy of `portable`, `include/causal.h`, `VERSION` and `bindings/LICENSE`, which
each build takes anew; a source distribution has it in itself.
"""
import glob
import os
import re
import shutil
import sys

import setuptools
from setuptools import Extension, setup
from setuptools.command.build_ext import build_ext
from setuptools.command.build_py import build_py

try:
    from setuptools.command.bdist_wheel import bdist_wheel
except ImportError:
    from wheel.bdist_wheel import bdist_wheel

if int(setuptools.__version__.split(".")[0]) < 61:
    raise SystemExit(f"causal: setuptools 61 or later is needed to build the package, and this is {setuptools.__version__}")

HERE = os.path.dirname(os.path.abspath(__file__))
TOP = os.path.join(HERE, "..", "..")
NATIVE = os.path.join(HERE, "native")
# What of the C is the program's alone.
PROGRAM = ("main.c", "usage.h")
LIBRARY = {"win32": "causal.dll", "darwin": "libcausal.dylib"}.get(sys.platform, "libcausal.so")


def take_sources():
    """Copies the C and the version of the repository to `native`, where that is one, and gives the C files."""
    if os.path.isfile(os.path.join(TOP, "portable", "causal_code.c")):
        taken = [os.path.join(TOP, "VERSION"), os.path.join(TOP, "include", "causal.h"), os.path.join(TOP, "bindings", "LICENSE")]
        taken += glob.glob(os.path.join(TOP, "portable", "*.[ch]"))
        taken = [path for path in taken if os.path.basename(path) not in PROGRAM]
        os.makedirs(NATIVE, exist_ok=True)
        for name in {*os.listdir(NATIVE)} - {*map(os.path.basename, taken)}:
            os.remove(os.path.join(NATIVE, name))
        for path in taken:
            take(path, os.path.join(NATIVE, os.path.basename(path)))
    sources = sorted(glob.glob(os.path.join(NATIVE, "*.c")))
    if not sources:
        raise SystemExit("causal: there is no C to compile, neither in `native` beside setup.py nor in `portable` of the repository")
    return [os.path.relpath(path, HERE) for path in sources]


def take(path, to):
    """Copies a file, unless the copy is the same: what is compiled of it stays up to date then."""
    with open(path, "rb") as file:
        content = file.read()
    if os.path.isfile(to):
        with open(to, "rb") as file:
            if file.read() == content:
                return
    with open(to, "wb") as file:
        file.write(content)


def calls():
    """The calls of the library, which its header declares."""
    with open(os.path.join(NATIVE, "causal.h"), encoding="utf-8") as header:
        return re.findall(r"^uint8_t (causal_\w+)\(", header.read(), re.MULTILINE)


class BuildLibrary(build_ext):
    """Makes a plain shared library, which ctypes loads: it is no module of Python's."""

    def build_extension(self, ext):
        ext.extra_compile_args = ["/O1"] if self.compiler.compiler_type == "msvc" else ["-O1", "-g0"]
        if self.compiler.compiler_type == "unix":
            self.take_cc()
        super().build_extension(ext)

    def take_cc(self):
        """Takes `cc` where the compiler that this Python was built with isn't here."""
        for kind in ("compiler_so", "linker_so"):
            command = getattr(self.compiler, kind)
            if not shutil.which(command[0]) and shutil.which("cc"):
                self.compiler.set_executable(kind, ["cc", *command[1:]])

    def get_ext_filename(self, fullname):
        return os.path.join(*fullname.split(".")[:-1], LIBRARY)

    def get_export_symbols(self, ext):
        return ext.export_symbols


class BuildWithVersion(build_py):
    """Puts the version into the package."""

    def run(self):
        super().run()
        if not getattr(self, "editable_mode", False):
            shutil.copy2(os.path.join(NATIVE, "VERSION"), os.path.join(self.build_lib, "causal", "VERSION"))


class WheelOfOnePlatform(bdist_wheel):
    """The package fits every Python, but one platform."""

    def finalize_options(self):
        super().finalize_options()
        self.root_is_pure = False

    def get_tag(self):
        return "py3", "none", platform_of(super().get_tag()[2], os.path.join(self.bdist_dir, "causal", LIBRARY))


def platform_of(platform, library):
    """The tag of a platform: on Linux that of the glibc whose symbols the library needs, since it needs nothing else (PEP 600)."""
    if not platform.startswith("linux_") or not os.path.isfile(library):
        return platform
    with open(library, "rb") as file:
        needed = [int(minor) for minor in re.findall(rb"GLIBC_2\.([0-9]+)", file.read())]
    return f"manylinux_2_{max([17, *needed])}_{platform[len('linux_'):]}" if needed else platform


SOURCES = take_sources()


def told_in(name):
    """What a file of `native` tells."""
    with open(os.path.join(NATIVE, name), encoding="utf-8") as told:
        return told.read().strip()



library = Extension(
    "causal.libcausal",
    sources=SOURCES,
    depends=[os.path.relpath(path, HERE) for path in glob.glob(os.path.join(NATIVE, "*.h"))],
    include_dirs=["native"],
    export_symbols=calls(),
)
setup(
    version=told_in("VERSION"),
    license=told_in("LICENSE"),
    license_files=["native/LICENSE"],
    ext_modules=[library],
    cmdclass={"build_py": BuildWithVersion, "build_ext": BuildLibrary, "bdist_wheel": WheelOfOnePlatform},
)
