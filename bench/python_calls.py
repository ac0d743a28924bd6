#!/usr/bin/env python3
"""Times calls of the library from Python: `python_calls.py`, with bindings/python on the path of modules.

It prints the time of one separation in process beside that of networkx on the same graphs and questions (where networkx is there),
of one `identify` on a diagram that is kept beside reading its text each time, and of importing the package. `is_separated` asks for
yes or no, `separated` gives a path too, both of a diagram that is kept; networkx is timed with its graph at hand, and with making it of the edges first. Times are those of the processor, the
least of nine rounds in which all take turns, so that other work on the machine counts for little.
"""
import os
import random
import resource
import subprocess
import sys
import tempfile

import causal
from make_ascending import edges_of

HERE = os.path.dirname(os.path.abspath(__file__))
EXAMPLES = os.path.join(HERE, "..", "examples")
ROUNDS = 9


def questions_of(vertices, number, source):
    """Two vertices and a set of at most six others, in turn."""
    names = [f"v{k}" for k in range(vertices)]
    for _ in range(number):
        chosen = source.sample(names, 2 + source.randrange(7))
        yield chosen[0], chosen[1], chosen[2:]


def own_time():
    """The processor's time of this process and of those that it waited for."""
    return sum(sum(resource.getrusage(who)[:2]) for who in (resource.RUSAGE_SELF, resource.RUSAGE_CHILDREN))


def best(*calls):
    """The least time of each call in microseconds, by rounds in which they take turns."""
    times = [[] for _ in calls]
    for _ in range(ROUNDS):
        for call, own in zip(calls, times):
            start = own_time()
            call()
            own.append(own_time() - start)
    return [min(own) * 1e6 for own in times]


def separations(vertices, chance):
    """Prints the times of one question, after both answered each of them alike."""
    source = random.Random(vertices)
    edges = edges_of(vertices, chance, source)
    diagram = causal.Diagram.from_edges(edges, vertices=[f"v{k}" for k in range(vertices)])
    questions = list(questions_of(vertices, 200, source))
    head = f"separate, {vertices} vertices, {len(edges)} edges"

    def ask():
        return [diagram.is_separated(x, y, given) for x, y, given in questions]

    def ask_path():
        return [bool(diagram.separated(x, y, given)) for x, y, given in questions]

    try:
        import networkx
    except ImportError:
        print("skipped: networkx: no networkx")
        own, path = [time / len(questions) for time in best(ask, ask_path)]
        print(f"{head}: {own:.1f} us, with a path {path:.0f} us")
        return
    name = "is_d_separator" if hasattr(networkx, "is_d_separator") else "d_separated"
    separated, graph = getattr(networkx, name), diagram.to_networkx()

    def ask_networkx():
        return [separated(graph, {x}, {y}, set(given)) for x, y, given in questions]

    def make_and_ask():
        for x, y, given in questions:
            made = networkx.DiGraph()
            made.add_nodes_from(diagram.vertices)
            made.add_edges_from(edges)
            separated(made, {x}, {y}, set(given))

    answers = ask()
    if not answers == ask_path() == ask_networkx():
        sys.exit("the answers differ")
    own, path, other, made = [time / len(questions) for time in best(ask, ask_path, ask_networkx, make_and_ask)]
    print(
        f"{head}, {sum(answers)} of {len(questions)} separated: {own:.1f} us; with a path {path:.0f} us; "
        f"networkx {networkx.__version__} {name}: {other:.0f} us ({other / own:.0f} times), with making its graph {made:.0f} us"
    )


def repeated(call):
    """The call, 200 times, each answer dropped before the next."""

    def calls():
        for _ in range(200):
            call()

    return calls


def identifications():
    """Prints the time of one identification of each example, alone, with its LaTeX and with its certificate."""
    for name in ("kidney_stones.dag", "front_door.dag", "napkin.dag", "exported.dag", "bow.dag"):
        diagram = causal.Diagram.from_file(os.path.join(EXAMPLES, name))
        own, latex, certificate = best(
            repeated(diagram.identify),
            repeated(lambda: getattr(diagram.identify(), "latex", None)),
            repeated(lambda: diagram.identify().certificate),
        )
        print(f"identify {name}: {own / 200:.1f} us, with its LaTeX {latex / 200:.1f}, with its certificate {certificate / 200:.1f}")


def identifications_of_many(vertices, chance):
    """Prints the time of one identification on a larger graph, kept and read each time, after both answered alike."""
    source = random.Random(vertices)
    edges = edges_of(vertices, chance, source)
    diagram = causal.Diagram.from_edges(edges, vertices=[f"v{k}" for k in range(vertices)])
    kept = diagram._keep()
    for command, *options in (["identify"], ["adjust"], ["adjust", "--set", "v1,v2"]):
        words = [command, "g", "--x", "v20", "--y", "v60", *options]
        if kept.run(words) != causal.run(words, {"g": diagram.source}):
            sys.exit("the answers differ")
        own, anew = best(
            lambda: [kept.run(words) for _ in range(50)], lambda: [causal.run(words, {"g": diagram.source}) for _ in range(50)]
        )
        print(f"{' '.join([command, *options])}, {vertices} vertices, {len(edges)} edges: kept {own / 50:.0f} us, read each time {anew / 50:.0f} us")


def imports():
    """Prints the time of importing the package, over that of Python alone, and with a first answer. Its bytecode is there, as it
    is for a package that is installed."""
    with tempfile.TemporaryDirectory() as kept:
        environment = {**os.environ, "PYTHONPYCACHEPREFIX": kept, "PYTHONDONTWRITEBYTECODE": ""}

        def process(code):
            return lambda: subprocess.run([sys.executable, "-c", code], env=environment, check=True)

        alone, imported, asked = best(
            process("pass"), process("import causal"), process("import causal; causal.Diagram('dag{X->Y}').identify('X', 'Y')")
        )
    print(f"import: {(imported - alone) / 1e3:.1f} ms; with a first answer: {(asked - alone) / 1e3:.1f} ms")


def main():
    print(f"Python {sys.version.split()[0]}")
    for vertices in (40, 64):
        for chance in (0.1, 3 / 16):
            separations(vertices, chance)
    identifications()
    identifications_of_many(64, 0.3)
    imports()


if __name__ == "__main__":
    main()
