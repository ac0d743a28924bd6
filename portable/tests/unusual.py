#!/usr/bin/env python3
"""unusual.py [--more] [--first] [--kept FILE] NATIVE PROGRAM..: unusual words, inputs and outputs, of each program beside the native one.

Each use is a line of bash, with @ for the program, run in a fresh folder with the files of examples/. The programs have to end with
the same status, and to write the same to standard output, to standard error and into the file `out`. Where this runs as root, all of
it is run as nobody, whom files without permission stop. With --first it ends at the first use that differs. With --kept the native
program's endings are taken from a file, or written there where it isn't.
"""
from __future__ import annotations

import argparse
import ast
import fcntl
import os
import pty
import shutil
import signal
import struct
import subprocess
import sys
import tempfile
import termios
import time
import tty
from functools import partial
from typing import Callable, NamedTuple

from targets import TOP

USES = r"""
@
@ ''
@ identify
@ identify --unknown
@ identify nothing.dag
@ identify nothing.dag --unknown
@ identify ''
@ identify '' x
@ identify .
@ identify front_door.dag front_door.dag
@ identify front_door.dag/
@ identify "$(printf 'a\nb')"
@ identify "$(printf '\xff')"
@ "$(printf '\xff')"
@ identify "$(printf 'a%.0s' {1..300})"
@ identify "$(printf 'a%.0s' {1..5000})"
@ identify "$(printf 'é%.0s' {1..50})" 2>&1
@ identify -- front_door.dag
@ identify -- -x.dag
cp front_door.dag -- -x.dag; @ identify -- -x.dag
cp front_door.dag identify; @ identify identify
cp front_door.dag é.dag; @ identify é.dag
@ identify --x=X --y=Y front_door.dag
@ identify --x X front_door.dag --y Y
@ identify --x X --x Y front_door.dag
@ identify --x= --y=Y front_door.dag
@ rule fork.dag --rule 2 --y A --z C
@ rule fork.dag --rule 4 --y A --z C
@ survey 3
@ survey
@ survey 18446744073709551615
@ survey 18446744073709551616
@ surrogate trial.dag --experiments Z
@ adjust exported.dag --most 0
@ adjust exported.dag --most 1
@ graph fork.dag --project x
@ separate collider.dag
@ implications fork.dag
# standard input
@ identify - <front_door.dag
@ identify - </dev/null
@ identify - <&-
@ identify - <.
cat front_door.dag | @ identify -
(sleep 0.1; cat front_door.dag; sleep 0.1) | @ identify -
(head -c 30 front_door.dag; sleep 0.2; tail -c +31 front_door.dag) | @ identify -
@ identify /dev/stdin <front_door.dag
@ identify <(cat front_door.dag)
mkfifo pipe; cat front_door.dag >pipe & @ identify pipe
@ evaluate kidney_stones.dag - --count count <kidney_stones.csv
@ evaluate - kidney_stones.csv --count count <kidney_stones.dag
@ evaluate nothing.dag - <kidney_stones.csv
{ @ graph - >/dev/null; cat; } <front_door.dag
(cat fork.dag; echo; cat fork.dag) | { @ graph -; cat; }
# an input that is named twice is read once
@ equivalent fork.dag fork.dag
@ equivalent - - <fork.dag
@ check - - <front_door.dag
mkfifo pipe; cat fork.dag >pipe & @ equivalent pipe pipe
# the second input is read only where it is asked for
@ evaluate nothing.dag nothing.csv
@ evaluate kidney_stones.dag nothing.csv
@ evaluate kidney_stones.dag nothing.csv --x nothing
mkfifo pipe; @ evaluate kidney_stones.dag pipe --x nothing
mkfifo pipe; @ equivalent kidney_stones.csv pipe
mkfifo pipe; @ identify pipe pipe
mkfifo pipe; @ implications pipe --count
@ evaluate kidney_stones.dag .
@ equivalent fork.dag .
@ check front_door.dag kidney_stones.csv
@ check /dev/null /dev/null
@ implications fork.dag fork.csv --count count
@ evaluate kidney_stones.dag kidney_stones.csv --count count --exact
@ identify front_door.dag --certificate | @ check front_door.dag -
# long inputs
@ graph /dev/zero
@ check front_door.dag /dev/zero
@ equivalent fork.dag /dev/zero
{ printf 'dag { A }'; head -c 1048567 /dev/zero | tr '\0' ' '; } >long; @ graph long
{ printf 'dag { A }'; head -c 1048568 /dev/zero | tr '\0' ' '; } >long; @ graph long
{ printf 'dag { A }'; head -c 1048567 /dev/zero | tr '\0' ' '; } >long; @ equivalent fork.dag long
{ printf 'dag { A }'; head -c 1048568 /dev/zero | tr '\0' ' '; } >long; @ equivalent fork.dag long
{ printf 'dag { A }'; head -c 3000000 /dev/zero | tr '\0' ' '; } | @ graph -
(printf 'dag { "'; head -c 70000 /dev/zero | tr '\0' a; printf '" "'; head -c 70000 /dev/zero | tr '\0' a; printf '" }') | @ graph -
(echo "dag {"; for i in {1..64}; do for j in {1..64}; do [ $i -lt $j ] && echo "n$i -> n$j"; done; done; echo "}") | @ graph - | md5sum
# files without permission
cp fork.dag secret; chmod 000 secret; @ graph secret
cp kidney_stones.csv secret; chmod 000 secret; @ evaluate kidney_stones.dag secret --count count
mkdir folder; cp fork.dag folder/g; chmod 000 folder; @ graph folder/g; status=$?; chmod 700 folder; exit $status
# reads that fail
@ graph /proc/self/mem
@ check front_door.dag /proc/self/mem
# writes that fail
@ identify front_door.dag >/dev/full
@ identify front_door.dag >&-
@ identify nothing.dag >&-
@ identify nothing.dag >/dev/full
@ identify nothing.dag 2>/dev/full
@ identify nothing.dag 2>&-
@ identify front_door.dag >/dev/full 2>/dev/full
@ identify front_door.dag <&- >&- 2>&-
@ identify front_door.dag 2>&-
@ survey 1 >/dev/full
(echo "dag {"; for i in {1..64}; do for j in {1..64}; do [ $i -lt $j ] && echo "n$i -> n$j"; done; done; echo "}") >big; @ graph big >/dev/full
(echo "dag {"; for i in {1..64}; do for j in {1..64}; do [ $i -lt $j ] && echo "n$i -> n$j"; done; done; echo "}") >big; trap '' XFSZ; ulimit -f 8; @ graph big >out; status=$?; rm out; exit $status
@ identify front_door.dag | head -c 5; echo ${PIPESTATUS[0]}
{ sleep 0.3; @ survey 1; } | true; echo ${PIPESTATUS[0]}
{ sleep 0.3; @ identify front_door.dag --certificate; } | true; echo ${PIPESTATUS[0]}
ulimit -f 1; @ identify bow.dag >out
trap '' XFSZ; ulimit -f 1; for i in 1 2 3; do @ identify napkin.dag --certificate; done >out
trap '' PIPE; { sleep 0.3; @ identify front_door.dag; } | true; echo ${PIPESTATUS[0]}
# little stack
ulimit -s 1024; @ identify napkin.dag
ulimit -s 1024; @ evaluate kidney_stones.dag kidney_stones.csv --count count
"""

# With --more.
MORE = r"""
@ identify --help
@ identify front_door.dag --help
@ identify front_door.dag --version
@ identify front_door.dag --x "$(printf 'a%.0s' {1..300})"
@ identify front_door.dag --x "$(printf 'a%.0s' {1..5000})" --y "$(printf 'b%.0s' {1..300})"
@ identify front_door.dag --x "$(head -c 70000 /dev/zero | tr '\0' a)" --y Y
@ identify front_door.dag --unknown "$(head -c 70000 /dev/zero | tr '\0' a)"
@ identify "$(head -c 131071 /dev/zero | tr '\0' a)"
@ "$(head -c 131071 /dev/zero | tr '\0' a)" "$(head -c 131071 /dev/zero | tr '\0' b)" "$(head -c 131071 /dev/zero | tr '\0' c)"
d=$(printf 'a%.0s' {1..100}); mkdir -p $d/$d/$d; cp front_door.dag $d/$d/$d/; @ identify $d/$d/$d/front_door.dag
{ printf 'dag { A }'; head -c 1300000 /dev/zero | tr '\0' ' '; } | { @ graph - >/dev/null; wc -c; }
{ printf 'dag { A }'; head -c 1300000 /dev/zero | tr '\0' ' '; } | { @ evaluate - kidney_stones.csv --count count >/dev/null; wc -c; }
{ printf '{'; head -c 1300000 /dev/zero | tr '\0' ' '; } | { @ check front_door.dag - >/dev/null; wc -c; }
mkfifo pipe; @ evaluate nothing.dag pipe
mkfifo pipe; @ equivalent . pipe
(printf 'dag {'; for i in {1..40}; do printf 'v%s%01000d ' $i 0; done; printf '}') | @ implications - | md5sum
(printf 'dag {'; for i in {1..40}; do printf 'v%s%01000d ' $i 0; done; printf '}') | @ implications - --json | md5sum
"""


class Ending(NamedTuple):
    """The status of a use, and what it wrote."""
    status: int
    out: bytes
    err: bytes
    file: bytes


def begin(folder: str) -> None:
    """Makes the folder anew, with the examples."""
    subprocess.run(["chmod", "-R", "u+rwX", folder], stderr=subprocess.DEVNULL)
    shutil.rmtree(folder, ignore_errors=True)
    shutil.copytree(f"{TOP}/examples", folder)
    if os.getuid() == 0:
        subprocess.run(["chown", "-R", "nobody", folder], check=True)


def as_nobody() -> list[str]:
    return ["setpriv", "--reuid=nobody", "--regid=nogroup", "--clear-groups"] if os.getuid() == 0 else []


def ending(folder: str, program: str, use: str) -> Ending:
    begin(folder)
    words = [*as_nobody(), "bash", "-c", use.replace("@", program)]
    running = subprocess.Popen(words, cwd=folder, stdin=subprocess.DEVNULL, stdout=subprocess.PIPE, stderr=subprocess.PIPE, start_new_session=True)
    try:
        out, err = running.communicate(timeout=60)
    except subprocess.TimeoutExpired:
        os.killpg(running.pid, signal.SIGKILL)
        out, err = running.communicate()
        err += b"no end"
    written = b""
    if os.path.exists(f"{folder}/out"):
        with open(f"{folder}/out", "rb") as file:
            written = file.read()
    # (bash names its own line where it says that a signal ended the program)
    return Ending(running.returncode, out, err.replace(program.encode(), b"@"), written)


def cut_off(folder: str, program: str, words: list[str], text: bytes) -> Ending:
    """The ending of a run whose standard input fails behind some text: a terminal that goes while the program waits for more."""
    begin(folder)
    ours, theirs = pty.openpty()
    tty.setraw(theirs, termios.TCSANOW)
    os.write(ours, text)
    running = subprocess.Popen([program, *words], cwd=folder, stdin=theirs, stdout=subprocess.PIPE, stderr=subprocess.PIPE)
    while running.poll() is None and struct.unpack("i", fcntl.ioctl(theirs, termios.FIONREAD, bytes(4)))[0] > 0:
        time.sleep(0.01)
    time.sleep(0.2)
    os.close(ours)
    out, err = running.communicate(timeout=60)
    os.close(theirs)
    return Ending(running.returncode, out, err, b"")


# Words with what their standard input begins with, before it is cut off.
CUT_OFF = [(["graph", "-"], b"dag { A -> B }"), (["check", "front_door.dag", "-"], b"{"), (["check", "-", "front_door.dag"], b"dag {")]


class Native:
    """The endings of the native program, which a file may have."""

    def __init__(self, program: str, file: str | None) -> None:
        self.program, self.file = program, file
        self.endings: dict[str, Ending] = {}
        if file and os.path.exists(file):
            with open(file, encoding="utf-8") as kept:
                self.endings = {use: Ending(*ast.literal_eval(row)) for use, row in ast.literal_eval(kept.read()).items()}

    def ending(self, use: str, run: Callable[[str], Ending]) -> Ending:
        if use not in self.endings:
            self.endings[use] = run(self.program)
        return self.endings[use]

    def keep(self) -> None:
        if self.file and not os.path.exists(self.file):
            with open(self.file, "w", encoding="utf-8") as kept:
                kept.write(repr({use: repr(tuple(it)) for use, it in self.endings.items()}))


def main(text: str, is_first: bool, file: str | None, native: str, programs: list[str]) -> int:
    lines = [line for line in text.strip().splitlines() if not line.startswith("#")]
    wrong = 0
    with tempfile.TemporaryDirectory() as room:
        os.chmod(room, 0o755)
        folder = f"{room}/folder"
        copies = [shutil.copy(program, f"{room}/program{number}") for number, program in enumerate([native, *programs])]
        uses: list[tuple[str, Callable[[str], Ending]]] = [(line, partial(ending, folder, use=line)) for line in lines]
        uses += [(f"{words}, cut off", partial(cut_off, folder, words=words, text=given)) for words, given in CUT_OFF]
        kept = Native(copies[0], file)
        for use, run in uses:
            wanted = kept.ending(use, run)
            for program, copy in zip(programs, copies[1:]):
                got = run(copy)
                if got != wanted:
                    print(f"{program}: {use}\n  {got}\n  and not {wanted}")
                    wrong += 1
            if wrong and is_first:
                break
        kept.keep()
        subprocess.run(["chmod", "-R", "u+rwX", room])
    print(f"{len(uses)} unusual uses of {len(programs)} programs beside the native one, {wrong} differ")
    return 1 if wrong else 0


def arguments() -> argparse.Namespace:
    parser = argparse.ArgumentParser(description=__doc__, formatter_class=argparse.RawDescriptionHelpFormatter)
    parser.add_argument("--more", action="store_true")
    parser.add_argument("--first", action="store_true")
    parser.add_argument("--kept", metavar="FILE")
    parser.add_argument("native", metavar="NATIVE")
    parser.add_argument("programs", metavar="PROGRAM", nargs="*")
    return parser.parse_args()


if __name__ == "__main__":
    given = arguments()
    sys.exit(main(MORE * given.more + USES, given.first, given.kept, os.path.abspath(given.native), [os.path.abspath(it) for it in given.programs]))
