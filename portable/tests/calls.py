#!/usr/bin/env python3
"""calls.py [--first] [TARGET..]: runs calls.c and program.c, which test causal.c and main.c by themselves, on each target (targets.py)
that is here.

Without a target: gcc, tcc, the sanitizers, and machines of 32 bits or with the other order of bytes. With --first it ends at the
first that fails. Status 77 where none is here.
"""
from __future__ import annotations

import os
import subprocess
import sys
import tempfile

from targets import PORTABLE, TARGETS, TOP, Failed, why_missing

USUAL = ["gcc", "tcc", "clang", "sanitized", "arm", "i686", "s390x", "windows"]


def test(name: str, source: str) -> str:
    """Why a source fails on a target, or nothing."""
    target = TARGETS[name]
    try:
        target.compile("test.exe", "-w", "-I", f"{TOP}/include", "-I", PORTABLE, f"{PORTABLE}/tests/{source}.c", *target.links)
    except Failed as failed:
        return str(failed)
    ran = subprocess.run([*target.runs, "./test.exe"], stdout=subprocess.PIPE, stderr=subprocess.STDOUT,
                         env={**os.environ, "WINEDEBUG": "-all"})
    text = ran.stdout.decode(errors="replace").replace("\r\n", "\n")
    return "" if (ran.returncode, text) == (0, f"{source}: all hold\n") else f"{source}: status {ran.returncode}: {text[-500:]}"


def main(names: list[str], is_first: bool) -> int:
    tried, wrong = 0, 0
    with tempfile.TemporaryDirectory() as folder:
        os.chdir(folder)
        for name in names or USUAL:
            missing = why_missing(name)
            if missing:
                print(f"skipped: calls on {name}: {missing}")
                continue
            tried += 1
            fault = test(name, "calls") or test(name, "program")
            print(f"{name}: {fault or 'all calls hold'}", flush=True)
            wrong += bool(fault)
            if fault and is_first:
                break
        os.chdir("/")
    return 1 if wrong else 0 if tried else 77


if __name__ == "__main__":
    sys.exit(main([it for it in sys.argv[1:] if it != "--first"], "--first" in sys.argv[1:]))
