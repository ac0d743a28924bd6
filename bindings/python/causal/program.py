"""The program `causal`, in this process: the command that the words name, over files that are read only once they are asked for.

A refusal is the line that the library writes; below it stand a sentence that says it in plain words and, where a place in a file is
told, the line of the file with a caret under the place.
"""
from __future__ import annotations

import os
import sys
from typing import Dict, Iterator, List, Optional, Sequence, TextIO, Tuple

from causal._library import Reply, inputs_of, knows_inputs, run
from causal.errors import CausalError, LibraryMissing, TextPlace
from causal.version import VERSION

WORDS, NO_INPUT, WRITE_FAILED, NO_MEMORY, NO_LIBRARY = 2, 6, 7, 8, 70
# No more bytes of a graph are read, and of no input at all; one more is refused.
MOST_OF_A_GRAPH, MOST = 1 << 20, 64 << 20

# As portable/usage.h has it.
USAGE = """\
usage: causal COMMAND ..

Answers questions about causal diagrams with hidden confounders, by a proved program.

    graph FILE [--project] [--json]
    separate FILE [--x L] [--y L] [--given L] [--json]
    rule FILE --rule N --y L --z L [--do L] [--given L] [--json]
    identify FILE [--x L] [--y L] [--given L] [--certificate] [--latex] [--short] [--json]
    check FILE CERTIFICATE [--experiments E] [--json]
    adjust FILE [--x L] [--y L] [--set L [--back-door] | --most N] [--json]
    evaluate FILE COUNTS [--x L] [--y L] [--given L | --set L [--back-door]] [--count NAME] [--exact] [--zero] [--matched] [--short] [--treated | --natural --through L] [--json]
    equivalent FILE FILE2 [--x L] [--y L] [--given L] [--json]
    survey N [--json]
    implications FILE [COUNTS] [--count NAME] [--json]
    surrogate FILE [--x L] [--y L] --experiments E [--models] [--certificate] [--json]
    bounds FILE COUNTS [--x L] [--y L] [[--given L] [--instrument L [--strata L]] | --set L] [--count NAME] [--exact] [--json]
    treated FILE [--x L] [--y L] [--given L] [--certificate] [--latex] [--json]
    instruments FILE [--x L] [--y L] [--most N] [--json]
    natural FILE --through L [--x L] [--y L] [--given L] [--certificate] [--latex] [--json]
    steps FILE CERTIFICATE [--experiments E] [--json]

FILE is a graph text, in the form of DAGitty; - is standard input. A list L is names joined by
commas, {} for none. Where x and y aren't listed, they are the vertices marked exposure and
outcome. COUNTS is CSV with a header: a column for each vertex, and with --count one of counts.
E is one to eight lists joined by ;, each an experiment.

    causal --help       prints this
    causal --version    prints the version

Statuses: 0 yes, 1 no; 2 words that aren't understood; 3 the graph or the target is refused;
4 the second input is refused; 5 the formula has no value over the counts; 6 a read failed,
7 a write failed; 8 memory was refused.
"""


class Files:
    """The files that the words name: what each holds, and why one can't be read. Each is read once.

    >>> from causal.program import Files
    >>> files = Files()
    >>> files.read(b"no/such/file", 100), files.failed
    (False, 'no/such/file: No such file or directory')
    """

    def __init__(self) -> None:
        self.contents: Dict[bytes, bytes] = {}
        self.failed = ""

    def read(self, name: bytes, most: int) -> bool:
        """Reads a file, `-` being standard input; no more than these bytes and one. Whether that went well."""
        if name in self.contents:
            return True
        try:
            self.contents[name] = content_of(name, most + 1)
        except (OSError, ValueError) as cause:
            reason = cause.strerror if isinstance(cause, OSError) and cause.strerror else str(cause)
            self.failed = f"{name.decode('utf-8', 'replace')}: {reason}"
            return False
        return True


def content_of(name: bytes, most: int) -> bytes:
    """The first bytes of a file, or of standard input."""
    if name != b"-":
        with open(name, "rb") as file:
            return file.read(most)
    if sys.stdin is None:
        raise ValueError("standard input is closed")
    return sys.stdin.buffer.read(most)


def wanted_by(words: Sequence[bytes], files: Files) -> Iterator[Tuple[bytes, int]]:
    """The inputs that the words ask for, in turn, with the most bytes of each.

    A library without `causal_inputs` says only that an input is lacked. Then it is asked again with an empty input of a word's name:
    an empty text is refused wherever one is read, so with the name that is meant the status is another.
    """
    if knows_inputs():
        wanted = inputs_of(words)
        if wanted is not None:
            yield from zip(wanted.names, (MOST_OF_A_GRAPH, wanted.most))
        return
    while run(words, files.contents).status == NO_INPUT:
        others = [word for word in words[1:] if word not in files.contents]
        lacked = [word for word in others if run(words, {**files.contents, word: b""}).status != NO_INPUT]
        if not lacked:
            break
        yield lacked[0], MOST


def answer(words: Sequence[bytes], files: Files) -> Reply:
    """What the command answers. A file is read only where the command comes to ask for it."""
    for name, most in wanted_by(words, files):
        if not files.read(name, most):
            break
        reply = run(words, files.contents)
        if reply.status != NO_INPUT:
            return reply
    return run(words, files.contents)


def explanation(words: Sequence[bytes], reply: Reply, files: Files) -> str:
    """A sentence on a refusal, and the line of the file with a caret under the place.

    >>> from causal._library import run
    >>> from causal.program import Files, explanation
    >>> files = Files()
    >>> files.contents[b"g"] = b"dag {\\n  a -- b\\n}"
    >>> print(explanation([b"graph", b"g"], run(["graph", "g"], files.contents), files))
    this edge has no direction (line 2, column 5):
      a -- b
        ^
    """
    if reply.status == WORDS:
        return "`causal --help` shows the commands and their options"
    if reply.status == NO_INPUT:
        return files.failed
    if not WORDS < reply.status < NO_INPUT:
        return ""
    # the refusal as an object, for which a command that answers in text is asked again
    told = reply if reply.out else run([*(word for word in words if word != b"--latex"), b"--json"], files.contents)
    return told_of(refusal_of(told, [*files.contents.values(), b"", b""])) if told.status == reply.status else ""


def refusal_of(reply: Reply, texts: List[bytes]) -> CausalError:
    """The exception that the package raises for a refusal of these inputs."""
    from causal.faults import Sources, raise_refusal

    try:
        raise_refusal(*reply, [], Sources(texts[0], texts[1]))
    except CausalError as error:
        return error


def told_of(error: CausalError) -> str:
    """The sentence of an error, with its place."""
    if not isinstance(error.place, TextPlace):
        return error.sentence
    return f"{error.sentence} (line {error.place.line}, column {error.place.column}):\n{error.excerpt}"


def write(stream: Optional[TextIO], content: bytes) -> bool:
    """Writes to a stream, which may be closed. Whether that went well."""
    if not content or stream is None:
        return not content
    try:
        if hasattr(stream, "buffer"):
            stream.buffer.write(content)
        else:
            stream.write(content.decode("utf-8", "replace"))
        stream.flush()
        return True
    except (OSError, ValueError):
        return False


def write_answer(words: Sequence[bytes], reply: Reply, files: Files) -> int:
    """Writes an answer, or a refusal with its explanation, and gives the status."""
    if not write(sys.stdout, reply.out):
        write(sys.stderr, b"causal: write failed\n")
        # what Python still holds isn't written again when it ends
        sys.stdout = None  # type: ignore[assignment]
        return WRITE_FAILED
    explained = explanation(words, reply, files)
    write(sys.stderr, reply.err + (f"{explained}\n".encode("utf-8", "surrogateescape") if explained else b""))
    return reply.status


def answered_here(words: Sequence[bytes]) -> Optional[Reply]:
    """What `--help` and `--version` answer, which the library doesn't."""
    told = {b"--help": USAGE, b"--version": f"causal {VERSION}\n"}.get(words[0]) if words else None
    return Reply(0, told.encode(), b"") if told else None


def main(words: Optional[Sequence[str]] = None) -> int:
    """Runs the command that the words name, and gives the status of the program.

    >>> from causal.program import main
    >>> main(["survey", "1"])
    vertices 40
    directed 146
    bidirected 46
    formulas 1510
    hedges 50
    0
    """
    asked = [os.fsencode(word) for word in (sys.argv[1:] if words is None else words)]
    files = Files()
    try:
        reply = answered_here(asked) or answer(asked, files)
    except LibraryMissing as cause:
        write(sys.stderr, f"causal: {cause}\n".encode())
        return NO_LIBRARY
    except MemoryError:
        write(sys.stderr, b"causal: no memory\n")
        return NO_MEMORY
    except ValueError:
        # a word isn't UTF-8
        return WORDS
    return write_answer(asked, reply, files)


if __name__ == "__main__":
    sys.exit(main())
