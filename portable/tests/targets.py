"""The compilers and machines that the C is tested with."""
from __future__ import annotations

import functools
import os
import shutil
import subprocess
import tempfile
from typing import NamedTuple

HERE = os.path.dirname(os.path.abspath(__file__))
PORTABLE = os.path.dirname(HERE)
TOP = os.path.dirname(PORTABLE)
# Where there is no gcc of this name, cc may be one, or another compiler with its options.
GCC = "gcc" if shutil.which("gcc") else "cc"
WARNINGS = ["-std=c99", "-Wall", "-Wextra", "-Werror"]
SANITIZERS = ["-g0", "-fsanitize=address,undefined", "-fno-sanitize-recover=undefined"]
PLAIN = ["-DWITHOUT_SSE2", "-D__TINYC__", "-U__SIZEOF_INT128__"]  # no vectors, no builtins, no numbers of 128 bits
# Where Debian's package wine64 has it.
WINE = shutil.which("wine64") or shutil.which("wine") or "/usr/lib/wine/wine64"


class Target(NamedTuple):
    """A compiler with its options, what its programs are linked with, what runs them, whether it compiles bindings/c/edges.c, and
    whether it compiles the code in its parts."""
    compiler: list[str]
    links: list[str] = []
    runs: list[str] = []
    has_edges: bool = True
    in_parts: bool = False

    def compile(self, output: str, *words: str) -> None:
        """Compiles what the words name; what the compiler says is an error's text."""
        made = subprocess.run([*self.compiler, *words, "-o", output], stdout=subprocess.PIPE, stderr=subprocess.STDOUT, text=True,
                              errors="replace")
        if made.returncode:
            raise Failed(f"{self.compiler[0]} failed on {' '.join(words)}:\n{made.stdout[-3000:]}")


class Failed(Exception):
    """Something isn't as it has to be."""


THREADS = ["-pthread"]
STATIC = ["-static", "-pthread"]
TARGETS = {
    "gcc": Target([GCC, "-O1", *WARNINGS], THREADS),
    "gcc-O0": Target([GCC, "-O0", *WARNINGS], THREADS),
    "parts": Target([GCC, "-O0", *WARNINGS], THREADS, in_parts=True),
    "gcc-O2": Target([GCC, "-O2", *WARNINGS], THREADS),
    "gcc-words": Target([GCC, "-O1", "-DWITHOUT_SSE2", *WARNINGS], THREADS),
    "gcc-plain": Target([GCC, "-O1", "-DSOFT_DOUBLES", *PLAIN, *WARNINGS], THREADS),
    "clang": Target(["clang", "-O1", *WARNINGS], THREADS),
    "tcc": Target(["tcc"], THREADS, has_edges=False),  # (some initializers of structs)
    "musl": Target(["musl-gcc", "-O1", *WARNINGS], STATIC),
    "sanitized": Target([GCC, "-O1", *SANITIZERS, *WARNINGS], THREADS),
    "aarch64": Target(["aarch64-linux-gnu-gcc", "-O1", *WARNINGS], STATIC, ["qemu-aarch64"]),
    "arm": Target(["arm-linux-gnueabihf-gcc", "-O1", *WARNINGS], STATIC, ["qemu-arm"]),
    "s390x": Target(["s390x-linux-gnu-gcc", "-O1", *WARNINGS], STATIC, ["qemu-s390x"]),
    "x87": Target([GCC, "-O1", "-mfpmath=387", *WARNINGS], THREADS),
    "i686": Target(["i686-linux-gnu-gcc", "-O1", *WARNINGS], STATIC),
    "windows": Target(["x86_64-w64-mingw32-gcc", "-O1", *WARNINGS], ["-static", "-pthread", "-lshell32"], [WINE]),
}


def can(words: list[str], folder: str) -> bool:
    """Whether words end with status 0. (What finds no end is no missing tool: that is an error.)"""
    try:
        ran = subprocess.run(words, cwd=folder, stdin=subprocess.DEVNULL, stdout=subprocess.DEVNULL, stderr=subprocess.DEVNULL, timeout=600)
    except OSError:
        return False
    return ran.returncode == 0


# What an earlier look found: the names of targets that are here. plants.py tells it to the tests that it runs.
FOUND = "PORTABLE_TARGETS"


@functools.lru_cache(maxsize=None)
def why_missing(name: str) -> str:
    """What a target lacks here, if it lacks something: a tool, its C library, or a machine that runs what it makes."""
    target = TARGETS[name]
    if name in os.environ.get(FOUND, "").split():
        return ""
    for tool in [target.compiler[0], *target.runs]:
        if not shutil.which(tool):
            return f"no {tool}"
    with tempfile.TemporaryDirectory() as folder:
        with open(f"{folder}/try.c", "w", encoding="ascii") as file:
            file.write('#include <stdio.h>\n#include <stdlib.h>\n#include <string.h>\nint main(void) { return puts("") < 0; }\n')
        options = [word for word in target.compiler if not word.startswith("-D")]
        if not can([*options, "-w", "try.c", "-o", "try.exe", *target.links], folder):
            return f"{target.compiler[0]} makes no program (its C library isn't here?)"
        if not can([*target.runs, "./try.exe"], folder):
            return f"what {target.compiler[0]} makes doesn't run here"
    return ""


@functools.lru_cache(maxsize=None)
def wasm_clang() -> tuple[str, ...]:
    """A clang that makes objects of wasm64: the toolchain's, or the machine's."""
    rt = shutil.which("rt")
    page = subprocess.run([rt, "doc"], capture_output=True, text=True).stdout.strip() if rt else ""
    with tempfile.TemporaryDirectory() as folder:
        with open(f"{folder}/try.c", "w", encoding="ascii") as file:
            file.write("int x;\n")
        for clang in f"{os.path.dirname(page)}/toolchain/bin/clang", "clang":
            if shutil.which(clang) and can([clang, "--target=wasm64-unknown-unknown", "-c", "try.c"], folder):
                return (clang,)
    return ()
