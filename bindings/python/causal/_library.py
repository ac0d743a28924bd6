"""The calls of the shared library, over inputs in memory."""
from __future__ import annotations

import functools
import os
import sys
from array import array
from itertools import accumulate
from typing import Any, Callable, Dict, Iterable, List, Mapping, NamedTuple, Optional, Sequence, Tuple, Union

from causal.errors import LibraryMissing, WrongType
from causal.objects import Answer, Told, read_line

Text = Union[str, bytes]
# Texts by the names of inputs. (Any: a mapping's keys are of one type alone, where types are checked.)
Inputs = Mapping[Any, Text]

OUT_ROOM = 1 << 14
ERR_ROOM = 1 << 10
NOT_TEXT = 9
NO_MEMORY = (7, 8, 10)
NOT_KEPT = 11
# The library beside this file, as its platform names one.
LIBRARY_NAMES = ("libcausal.so", "libcausal.dylib", "causal.dll")
# The code of `array` for numbers as wide as a size of C.
SIZE_CODE = "Q" if sys.maxsize > 2**32 else "I"


class Reply(NamedTuple):
    """What a run gave: its status, what it wrote to the output, and its line.

    >>> from causal import run
    >>> run(["separate", "g", "--x", "A", "--y", "C"], {"g": "dag{A->B<-C}"}).out
    b'separated: {A} from {C} given {}\\n'
    """

    status: int
    out: bytes
    err: bytes


def library_path() -> str:
    """Where the shared library is: the one that `CAUSAL_LIBRARY` names, else the package's own, else that of the source tree.

    >>> import os
    >>> from causal._library import library_path
    >>> os.path.isfile(library_path())
    True
    """
    here = os.path.dirname(os.path.abspath(__file__))
    places = [
        os.environ.get("CAUSAL_LIBRARY", ""),
        *(os.path.join(here, name) for name in LIBRARY_NAMES),
        os.path.join(here, "..", "..", "out", "libcausal.so"),
    ]
    for place in places:
        if place and os.path.isfile(place):
            return place
    raise LibraryMissing(
        "there is no compiled library beside the package: install it by pip, which compiles one,"
        " or name one in the environment variable CAUSAL_LIBRARY"
    )


class _Calls(NamedTuple):
    """The module `ctypes`, and the calls of the library; one behind `ask` is None where it is of a version without it."""

    ctypes: Any
    run: Any
    keep: Any
    separated: Any
    ask: Any
    inputs: Any
    identifiable: Any
    admissible: Any


@functools.lru_cache(maxsize=None)
def _load() -> _Calls:
    """The calls of the library. A `CDLL` lets other threads run during a call, and each call has memory of its own."""
    import ctypes

    path = library_path()
    try:
        library = ctypes.CDLL(path)
        known = library.causal_run, library.causal_keep, library.causal_separated, library.causal_ask
    except (OSError, AttributeError) as cause:
        raise LibraryMissing(f"the library at {path} can't be used: {cause}") from cause
    later = "causal_inputs", "causal_is_identifiable", "causal_is_admissible"
    calls = _Calls(ctypes, *known, *(getattr(library, name, None) for name in later))
    size, spans, room, bits = ctypes.c_size_t, ctypes.c_void_p, ctypes.c_char_p, ctypes.c_uint64
    asked = [ctypes.c_char_p, size, spans, size, spans, size, room, size, room, size, ctypes.c_void_p]
    calls.run.argtypes = asked
    calls.keep.argtypes = [ctypes.c_char_p, size, ctypes.c_void_p, room, size, ctypes.POINTER(size)]
    calls.separated.argtypes = [ctypes.c_void_p, bits, bits, bits]
    calls.ask.argtypes = [ctypes.c_void_p, ctypes.c_char_p, size, *asked]
    if calls.inputs is not None:
        calls.inputs.argtypes = [ctypes.c_char_p, size, spans, size, room, size, ctypes.POINTER(_wanted_type())]
    if calls.identifiable is not None:
        calls.identifiable.argtypes = [ctypes.c_void_p, bits, bits]
    if calls.admissible is not None:
        calls.admissible.argtypes = [ctypes.c_void_p, bits, bits, bits]
    for call in calls[1:]:
        if call is not None:
            call.restype = ctypes.c_uint8
    return calls


def as_bytes(text: Text) -> bytes:
    """The bytes of a text in UTF-8. A half of a surrogate pair gives bytes that aren't UTF-8, which the library refuses.

    >>> from causal._library import as_bytes
    >>> as_bytes("dag {}"), as_bytes(b"dag {}")
    (b'dag {}', b'dag {}')
    >>> as_bytes(3_000_000_000)
    Traceback (most recent call last):
        ...
    causal.errors.WrongType: a text is a str or bytes, and no int
    """
    if isinstance(text, str):
        return text.encode("utf-8", "surrogatepass")
    if isinstance(text, (bytes, bytearray, memoryview)):
        return bytes(text)
    raise WrongType(f"a text is a str or bytes, and no {type(text).__name__}")


class _Packed(NamedTuple):
    """Parts of one run of bytes: the bytes, the spans of the words and of the inputs, and how many of each there are."""

    data: bytes
    spans: "array[int]"
    words: int
    inputs: int

    @property
    def first_word(self) -> int:
        """The address of the span of the first word."""
        return self.spans.buffer_info()[0]

    @property
    def first_input(self) -> int:
        """The address of the span of the first input's name."""
        return self.first_word + 2 * self.words * self.spans.itemsize


def _packed(words: Iterable[Text], named: Inputs) -> _Packed:
    parts = [as_bytes(word) for word in words]
    count = len(parts)
    parts += [as_bytes(text) for pair in named.items() for text in pair]
    bounds = list(accumulate(map(len, parts), initial=0))
    # the start and the end of each part
    spans = array(SIZE_CODE, [bound for pair in zip(bounds, bounds[1:]) for bound in pair])
    return _Packed(b"".join(parts), spans, count, len(named))


def run(words: Iterable[Text], inputs: Optional[Inputs] = None) -> Reply:
    """Runs `causal WORDS..` over the named inputs, and raises nothing where `causal` refuses: its status and line say so.

    The statuses are those of the program. Status 6 says that the words name an input that isn't there.

    >>> from causal import run
    >>> run(["identify", "g", "--x", "X", "--y", "Y"], {"g": "dag{Z->X Z->Y X->Y}"})
    Reply(status=0, out=b'P(Y|do(X)) = sum{Z} P(Z) * P(Y|Z,X)\\n', err=b'')
    """
    return _run(_load().run, words, inputs or {})


def _run(call: Callable[..., int], words: Iterable[Text], named: Inputs) -> Reply:
    """Calls `causal_run`, or another call whose last arguments are the same."""
    ctypes = _load().ctypes
    packed = _packed(words, named)
    asked = packed.data, len(packed.data), packed.first_word, packed.words, packed.first_input, packed.inputs
    sizes = array(SIZE_CODE, (0, 0))
    out_room, err_room = OUT_ROOM, ERR_ROOM
    while True:
        out, err = ctypes.create_string_buffer(out_room), ctypes.create_string_buffer(err_room)
        status = call(*asked, out, out_room, err, err_room, sizes.buffer_info()[0])
        _raise_at(status)
        if sizes[0] <= out_room and sizes[1] <= err_room:
            return Reply(status, ctypes.string_at(out, sizes[0]), ctypes.string_at(err, sizes[1]))
        out_room, err_room = max(sizes[0], out_room), max(sizes[1], err_room)


def _raise_at(status: int) -> None:
    """Raises an exception at a status that says nothing of the question."""
    if status == NOT_TEXT:
        raise ValueError("a word isn't UTF-8")
    if status in NO_MEMORY:
        raise MemoryError("causal was refused memory")
    if status == NOT_KEPT:
        raise ValueError("the diagram isn't kept with these names")


class Wanted(NamedTuple):
    """The inputs that words may ask for: the names of the first and of the second, and the most bytes of the second that are read.

    >>> from causal._library import Wanted
    >>> Wanted((b"a.dag", b"b.csv"), 67108864).names
    (b'a.dag', b'b.csv')
    """

    names: Tuple[bytes, ...]
    most: int


@functools.lru_cache(maxsize=None)
def _wanted_type() -> Any:
    """`causal_wanted` in include/causal.h."""
    import ctypes

    class CausalWanted(ctypes.Structure):
        _fields_ = [*((name, ctypes.c_size_t) for name in ("count", "file", "second")), ("most", ctypes.c_uint64)]

    return CausalWanted


def knows_inputs() -> bool:
    """Whether the library says which inputs words may ask for."""
    return _load().inputs is not None


def inputs_of(words: Iterable[Text]) -> Optional[Wanted]:
    """The inputs that words may ask for; None where they aren't understood: `run` has the line then. See `knows_inputs`."""
    calls = _load()
    packed = _packed(words, {})
    room = len(packed.data)
    names, told = calls.ctypes.create_string_buffer(room + 1), _wanted_type()()
    status = calls.inputs(packed.data, room, packed.first_word, packed.words, names, room, told)
    _raise_at(status)
    if status:
        return None
    ends = [0, told.file, told.file + told.second]
    return Wanted(tuple(names.raw[start:end] for start, end in zip(ends, ends[1 : told.count + 1])), told.most)


@functools.lru_cache(maxsize=None)
def _diagram_type() -> Any:
    """`causal_diagram` in include/causal.h."""
    import ctypes

    class CausalGraph(ctypes.Structure):
        _fields_ = [("vertices", ctypes.c_uint32), *((name, ctypes.c_uint64 * 64) for name in ("parents", "children", "spouses"))]

    class CausalDiagram(ctypes.Structure):
        _fields_ = [
            *((name, CausalGraph) for name in ("observed", "read")),
            *((name, ctypes.c_uint64) for name in ("exposures", "outcomes", "adjusted", "latent")),
        ]

    return CausalDiagram


class KeptDiagram:
    """A diagram whose text was read once. What it answers is what `run` answers with that text as the command's file.

    >>> from causal._library import KeptDiagram
    >>> chain = KeptDiagram(b"dag{A->B->C}", ("A", "B", "C"))
    >>> chain.separated(["A"], ["C"], ["B"]), chain.separated(["A"], ["C"], []), chain.separated(["A"], ["D"], [])
    (True, False, None)
    >>> chain.identifiable(["A"], ["C"]), chain.identifiable(["A"], [])
    (True, None)
    >>> chain.admissible(["A"], ["C"], []), chain.admissible(["A"], ["C"], ["B"]), chain.admissible([], ["C"], ["B"])
    (True, False, None)
    >>> chain.run(["identify", "chain", "--x", "A", "--y", "C"]).out
    b'P(C|do(A)) = sum{B} P(B|A) * P(C|B)\\n'
    """

    def __init__(self, text: bytes, observed: Iterable[str]) -> None:
        """The diagram of a text; its observed vertices have these names, in order."""
        calls = _load()
        self._separated = calls.separated
        self._identifiable = calls.identifiable
        self._admissible = calls.admissible
        self._diagram = _diagram_type()()
        self._bits = {name: 1 << place for place, name in enumerate(observed)}
        room, size = calls.ctypes.create_string_buffer(len(text)), calls.ctypes.c_size_t()
        status = calls.keep(text, len(text), calls.ctypes.byref(self._diagram), room, len(text), size)
        _raise_at(status)
        if status or size.value > len(text):
            raise ValueError("the text isn't kept")
        self._names = room.raw[: size.value]
        self._place = calls.ctypes.addressof(self._diagram)
        self._asked = functools.partial(calls.ask, self._place, self._names, len(self._names))

    @property
    def names(self) -> Tuple[str, ...]:
        """The observed vertices, in order."""
        return tuple(self._bits)

    def _mask(self, names: Iterable[str]) -> int:
        mask = 0
        for name in names:
            bit = self._bits[name]
            if mask & bit:
                raise KeyError(name)
            mask |= bit
        return mask

    def separated(self, x: Iterable[str], y: Iterable[str], given: Iterable[str]) -> Optional[bool]:
        """Whether the sets are separated; None where that can't be asked of them: `run` says why."""
        try:
            status = self._separated(self._place, self._mask(x), self._mask(y), self._mask(given))
        except KeyError:
            return None
        return None if status > 1 else status == 0

    def identifiable(self, x: Iterable[str], y: Iterable[str]) -> Optional[bool]:
        """Whether the effect has a formula; None where that can't be asked: `run` says why."""
        if self._identifiable is None:
            return None
        try:
            status = self._identifiable(self._place, self._mask(x), self._mask(y))
        except KeyError:
            return None
        return None if status > 1 else status == 0

    def admissible(self, x: Iterable[str], y: Iterable[str], members: Iterable[str]) -> Optional[bool]:
        """Whether a set is admissible for the effect; None where that can't be asked: `run` says why."""
        if self._admissible is None:
            return None
        try:
            status = self._admissible(self._place, self._mask(x), self._mask(y), self._mask(members))
        except KeyError:
            return None
        return None if status > 1 else status == 0

    def run(self, words: Iterable[Text], inputs: Optional[Inputs] = None) -> Reply:
        """As `run`, on the diagram, which stands for the file of the command."""
        return _run(self._asked, words, inputs or {})


def reply_to(words: List[Text], text: bytes, second: Optional[bytes], kept: Optional[KeptDiagram], form: Sequence[Text] = ("--json",)) -> Reply:
    """Runs words whose inputs are called `diagram` and `second`, with an object as answer, or in another form. Where the text is kept, it isn't read
    again.

    >>> from causal._library import reply_to
    >>> reply_to(["equivalent", "diagram", "second"], b"dag{A->B}", b"dag{A<-B}", None).out
    b'{"answer":"equivalent"}\\n'
    """
    inputs: Dict[Text, Text] = {} if kept else {"diagram": text}
    if second is not None:
        inputs["second"] = second
    asked = [*words, *form]
    return kept.run(asked, inputs) if kept else run(asked, inputs)


def ask(
    read: Callable[[Told], Answer],
    command: str,
    text: bytes,
    *options: Text,
    second: Optional[bytes] = None,
    level_of: Optional[Callable[[str, str], Any]] = None,
    formula: Any = None,
    kept: Optional[KeptDiagram] = None,
) -> Answer:
    """Asks a diagram's text, and reads the object of the answer. A refusal is raised.

    Where the text is kept, it isn't read again. The levels of a cell at which a refusal is are found by `level_of`, where it is
    given, and a node of the formula is looked up in `formula`.

    >>> from causal._library import ask
    >>> ask(dict, "equivalent", b"dag{A->B}", second=b"dag{A<-B}")
    {'answer': 'equivalent'}
    """
    asked = [command, "diagram", *(["second"] if second is not None else []), *options]
    status, out, err = reply_to(asked, text, second, kept)
    if status > 1:
        from causal.faults import Sources, raise_refusal

        levels = {} if level_of is None else {"level_of": level_of}
        names = () if kept is None else kept.names
        raise_refusal(status, out, err, asked, Sources(text, second or b"", formula=formula, names=names, **levels))
    return read_line(read, out)
