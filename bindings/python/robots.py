"""Questions about robots.txt files (RFC 9309, and the draft of 1996), asked of librobots.so.

The library's exported functions, one to one, decide(), which asks for a whole
decision, and batch(), which asks about a list of paths. Octets are given as
bytes. A decision is made by the RFC unless another dialect is given, last.
include/robots.h says what each function answers, and names the numbers.

The library is target/shared/librobots.so, which 'make shared' makes, or the
file that the environment variable ROBOTS_LIBRARY names.
"""

import ctypes
import enum
import functools
import itertools
import operator
import os
import pathlib
from typing import List, NamedTuple

NORMALISED_MOST = 6142
"""A buffer of so many octets is never too small for normalise()."""


class Refusal(enum.IntEnum):
    """Why a question is refused."""

    ANSWERED = 0
    LENGTH = 1
    NAME = 2
    PATH_LENGTH = 3
    PATH_START = 4
    PATH_OCTET = 5
    ROOM = 6
    INPUT = 7  # the program's only: no function gives it
    PATTERN = 8
    LINES = 9
    ENDS = 12  # robots_batch gives it and the next, but not to batch(), whose arrays are right
    ANSWERS = 13
    DIALECT = 20


class Dialect(enum.IntEnum):
    """Whose rules decide. Another number is refused."""

    RFC9309 = 0  # the heaviest match decides
    DRAFT1996 = 1  # the first match in file order; "*" and "$" stand for themselves


class Decision(NamedTuple):
    """A whole decision. A refused one is disallow, and zeros."""

    refusal: Refusal
    disallow: bool
    line: int
    place: int
    length: int
    unread: int
    compared: int


class Answer(NamedTuple):
    """What is decided for one path of a list. A refused one is disallow, and line 0."""

    refusal: Refusal
    disallow: bool
    line: int


class Batch(NamedTuple):
    """The refusal of a whole call, and an answer for each path. If the call is refused, so is each path."""

    refusal: Refusal
    answers: List[Answer]


# a pointer and a length; c_char_p takes bytes alone, and doesn't end at a NUL
_OCTETS = (ctypes.c_char_p, ctypes.c_size_t)
_BUFFER = (ctypes.c_void_p, ctypes.c_size_t)
_SIZES = (ctypes.POINTER(ctypes.c_size_t), ctypes.c_size_t)
# a dialect, a file, a name and a path
_DECISION = (ctypes.c_size_t,) + _OCTETS * 3

_ARGUMENTS = {
    "robots_decide_refusal": _DECISION,
    "robots_decide_disallow": _DECISION,
    "robots_decide_line": _DECISION,
    "robots_decide_place": _DECISION,
    "robots_decide_length": _DECISION,
    "robots_decide_unread": _DECISION,
    "robots_decide_compared": _DECISION,
    "robots_batch": _DECISION + _SIZES * 4,
    "robots_match_refusal": _OCTETS * 2,
    "robots_match_found": _OCTETS * 2,
    "robots_match_compared": _OCTETS * 2,
    "robots_normalise": _OCTETS + _BUFFER,
    "robots_normalise_refusal": _OCTETS + (ctypes.c_size_t,),
    "robots_line_refusal": _OCTETS,
    "robots_line_kind": _OCTETS,
    "robots_line_place": _OCTETS,
    "robots_line_length": _OCTETS,
}


def _loaded():
    root = pathlib.Path(__file__).resolve().parents[2]
    where = os.environ.get("ROBOTS_LIBRARY") or str(root / "target/shared/librobots.so")
    try:
        library = ctypes.CDLL(where)
        for name, arguments in _ARGUMENTS.items():
            function = getattr(library, name)
            function.argtypes = arguments
            function.restype = ctypes.c_size_t
    except (OSError, AttributeError) as error:
        advice = "run 'make shared' at the repository's root, or name the library in ROBOTS_LIBRARY"
        raise ImportError(f"can't use {where}: {advice} ({error})") from None
    return library


_library = _loaded()


def _asked(function, *texts):
    """Asks for one number; each text, or array, is given with its length."""
    return function(*(part for text in texts for part in (text, len(text))))


def _size(number, argument):
    """The number as it is: ctypes would cut it down to a size_t, and 2**64 to 0."""
    try:
        number = operator.index(number)
    except TypeError:
        raise TypeError(f"{argument} has to be an int, not {type(number).__name__}") from None
    if not 0 <= number <= ctypes.c_size_t(-1).value:
        raise ValueError(f"{argument} has to be a size_t, and {number} is none")
    return number


def _decided(function, dialect, *texts):
    """Asks for one number of a decision."""
    return _asked(functools.partial(function, _size(dialect, "dialect")), *texts)


def _octets(text, argument):
    """The text as it is: ctypes' own error for another type is no TypeError."""
    if not isinstance(text, bytes):
        raise TypeError(f"{argument} has to be bytes, not {type(text).__name__}")
    return text


def _joined(paths):
    """The joined octets of a list of paths, and where each ends. A single path is no list."""
    if not isinstance(paths, (list, tuple)):
        raise TypeError(f"paths has to be a list of bytes, not {type(paths).__name__}")
    texts = [_octets(path, "each of paths") for path in paths]
    return b"".join(texts), list(itertools.accumulate(map(len, texts)))


def _sizes(numbers):
    """An array of size_t to lend."""
    return (ctypes.c_size_t * len(numbers))(*numbers)


def decide(file: bytes, name: bytes, path: bytes, dialect: int = Dialect.RFC9309) -> Decision:
    """May the crawler fetch the path, by the file? It asks seven questions."""
    question = (file, name, path, dialect)
    return Decision(
        Refusal(decide_refusal(*question)),
        decide_disallow(*question) != 0,
        decide_line(*question),
        decide_place(*question),
        decide_length(*question),
        decide_unread(*question),
        decide_compared(*question),
    )


def decide_refusal(file: bytes, name: bytes, path: bytes, dialect: int = Dialect.RFC9309) -> int:
    """The refusal of a dialect, a file, a name and a path; 0 if answered."""
    return _decided(_library.robots_decide_refusal, dialect, file, name, path)


def decide_disallow(file: bytes, name: bytes, path: bytes, dialect: int = Dialect.RFC9309) -> int:
    """1 if the path is disallowed, 0 if it is allowed; 1 if refused."""
    return _decided(_library.robots_decide_disallow, dialect, file, name, path)


def decide_line(file: bytes, name: bytes, path: bytes, dialect: int = Dialect.RFC9309) -> int:
    """The deciding line, from 1; 0 if no rule decided."""
    return _decided(_library.robots_decide_line, dialect, file, name, path)


def decide_place(file: bytes, name: bytes, path: bytes, dialect: int = Dialect.RFC9309) -> int:
    """The place in the file of the deciding rule's raw pattern."""
    return _decided(_library.robots_decide_place, dialect, file, name, path)


def decide_length(file: bytes, name: bytes, path: bytes, dialect: int = Dialect.RFC9309) -> int:
    """The length of the deciding rule's raw pattern."""
    return _decided(_library.robots_decide_length, dialect, file, name, path)


def decide_unread(file: bytes, name: bytes, path: bytes, dialect: int = Dialect.RFC9309) -> int:
    """The unreadable agent and rule lines in the whole file; 0 if refused."""
    return _decided(_library.robots_decide_unread, dialect, file, name, path)


def decide_compared(file: bytes, name: bytes, path: bytes, dialect: int = Dialect.RFC9309) -> int:
    """The pairs of octets that the walks compare; 0 if refused."""
    return _decided(_library.robots_decide_compared, dialect, file, name, path)


def batch(file: bytes, name: bytes, paths: List[bytes], dialect: int = Dialect.RFC9309) -> Batch:
    """May the crawler fetch each of the paths, by the file? It asks once, and the file is read once.

    Each answer is that to a single question, in the order of the list. An
    unknown dialect, a file or a name that is refused refuses the whole call.
    """
    octets, ends = _joined(paths)
    texts = (_octets(file, "file"), _octets(name, "name"), octets, _sizes(ends))
    count = len(ends)
    # disallow for each, so that a place that isn't written opens nothing
    answers = (_sizes([0] * count), _sizes([1] * count), _sizes([0] * count))
    refusal = Refusal(_decided(_library.robots_batch, dialect, *texts, *answers))
    if refusal != Refusal.ANSWERED:
        return Batch(refusal, [Answer(refusal, True, 0)] * count)
    return Batch(refusal, [Answer(Refusal(number), side != 0, line) for number, side, line in zip(*answers)])


def match_refusal(pattern: bytes, path: bytes) -> int:
    """The refusal of a pattern and a path; 0 if answered."""
    return _asked(_library.robots_match_refusal, pattern, path)


def match_found(pattern: bytes, path: bytes) -> int:
    """1 if the pattern matches the path, otherwise 0; 0 if refused."""
    return _asked(_library.robots_match_found, pattern, path)


def match_compared(pattern: bytes, path: bytes) -> int:
    """The pairs of octets that the leftmost walk compares; 0 if refused."""
    return _asked(_library.robots_match_compared, pattern, path)


def normalise(path: bytes, buffer: bytearray) -> int:
    """Normalises a path into the front of the buffer; the rest stays.

    Answers the octets written, 0 if refused. Nobody else may use the buffer
    during the call.
    """
    lent = (ctypes.c_uint8 * len(buffer)).from_buffer(buffer)
    return _library.robots_normalise(path, len(path), lent, len(buffer))


def normalise_refusal(path: bytes, room: int) -> int:
    """The refusal of a path for a buffer of so many octets; 0 if answered."""
    return _library.robots_normalise_refusal(path, len(path), _size(room, "room"))


def line_refusal(line: bytes) -> int:
    """The refusal of a line; 0 if answered."""
    return _asked(_library.robots_line_refusal, line)


def line_kind(line: bytes) -> int:
    """The number of a line's kind; 0 if refused."""
    return _asked(_library.robots_line_kind, line)


def line_place(line: bytes) -> int:
    """The place of an agent's value or a rule's pattern."""
    return _asked(_library.robots_line_place, line)


def line_length(line: bytes) -> int:
    """The length of an agent's value or a rule's pattern."""
    return _asked(_library.robots_line_length, line)
