"""Perlwynos for Python: chain names of lipids to one CXSMILES line.

>>> import perlwynos
>>> drawn = perlwynos.draw("GL1", ["2:0"])
>>> drawn.line
'C(CO)(O)COC(=O)C'
>>> drawn.carbons, drawn.sites
({1: (6, 8)}, {1: 5})

A request that cannot be drawn raises `Refused`:

>>> perlwynos.draw("GL2", ["16:0", "sixteen"])
Traceback (most recent call last):
    ...
perlwynos.Refused: refusal 11: token 2 cannot be read as a chain name; the author of the name can mend it

The shared object stands beside this file, where the script `build` puts it, or where
the environment variable PERLWYNOS_SO says.
"""

import ctypes
import os
from typing import Dict, Iterable, NamedTuple, Tuple, Union

__all__ = ["Drawn", "Refused", "draw"]

__version__ = "0.2.0"

Text = Union[bytes, str]

# The places in a report, and the one refusal that is answered here: include/perlwynos.h.
_REPORT_ROOM = 21
_TOKEN, _LENGTH, _LISTS, _LIST, _SITES, _SITE = 1, 2, 3, 4, 12, 13
_SHORT_SLICE = 41

# How much room a first call has for its line (bytes) and its indices (numbers).
_LINE_ROOM = 4096
_INDEX_ROOM = 1024

_AUTHOR = "the author of the name"
_PICKER = "whoever picked the template"
_PROGRAM = "the calling program"

# What each refusal says, of the token that `{}` stands for, and who can mend it: tools/sheet/answers.tsv of the project.
_MEANINGS = {
    11: ("{} cannot be read as a chain name", _AUTHOR),
    12: ("{} puts a group on C1 of an acyl chain, which is the carbonyl carbon", _AUTHOR),
    13: ("{} has its first group or ring too far along the chain: double bonds without a position could lie before it", _AUTHOR),
    14: ("{} has too few carbons for its double bonds without a position", _AUTHOR),
    15: ("{} has a group without a position, and no carbon to put it on", _AUTHOR),
    20: ("the class is none of FA, GL1, GL2, GL3, GP, CL, SB and SA", _PICKER),
    21: ("the class takes another number of tokens", _PICKER),
    22: ("{} is of a kind that its place in the class does not take", _PICKER),
    23: ("the tail is missing, is outside the grammar of tails, or is given to a class without one", _PICKER),
    31: ("{} has a byte that is not printable ASCII, or more than 255 bytes, 255 carbons, 16 groups, 8 rings or 32 double bonds with a position", _AUTHOR),
    32: ("{} has a feature that does not lie on the drawn chain", _AUTHOR),
    33: ("{} has two features that cannot both be drawn", _AUTHOR),
    41: ("the line or the indices need more room than was lent", _PROGRAM),
}


class Refused(Exception):
    """A request that cannot be drawn.

    `number` is the number of the refusal, `place` the token that it concerns, from 1, or
    0 where no token is meant. `meaning` says what is wrong, `mender` who can put it right.

    >>> Refused(14, 2).meaning
    'token 2 has too few carbons for its double bonds without a position'
    """

    def __init__(self, number: int, place: int):
        super().__init__(number, place)
        self.number = number
        self.place = place
        meaning, self.mender = _MEANINGS[number]
        self.meaning = meaning.format(f"token {place}")

    def __str__(self) -> str:
        return f"refusal {self.number}: {self.meaning}; {self.mender} can mend it"


class _Fixed(dict):
    """A dict that stays as it was made."""

    __slots__ = ()

    def _refuse(self, *_, **__):
        raise TypeError("what was drawn cannot be altered")

    __setitem__ = __delitem__ = __ior__ = _refuse
    clear = pop = popitem = setdefault = update = _refuse

    def __hash__(self):
        return hash(frozenset(self.items()))

    def __reduce__(self):
        return _Fixed, (dict(self),)


class Drawn(NamedTuple):
    """An accepted request. Atoms are counted from 0, as they stand in the line."""

    line: str
    """The CXSMILES line, which is ASCII."""
    carbons: Dict[int, Tuple[int, ...]]
    """By the sn of each chain that has carbons: the atoms of these, from C1 on."""
    sites: Dict[int, int]
    """By sn: the first atom that the chain, with the O of its place, adds to the line."""


def _load():
    path = os.environ.get("PERLWYNOS_SO")
    if not path:
        path = os.path.join(os.path.dirname(os.path.abspath(__file__)), "libperlwynos.so")
    try:
        call = ctypes.CDLL(path).perlwynos_draw
    except (OSError, AttributeError) as error:
        raise ImportError(f"perlwynos: {error}; bindings/python/build makes the shared object") from error
    text = [ctypes.c_char_p, ctypes.c_size_t]
    call.restype = ctypes.c_uint32
    call.argtypes = [
        *text,  # class
        ctypes.c_uint8,  # swap
        *text,  # tail
        ctypes.c_size_t,  # count
        *(4 * text),  # sn1 to sn4
        ctypes.POINTER(ctypes.c_char),  # line
        ctypes.c_size_t,
        ctypes.POINTER(ctypes.c_uint16),  # index
        ctypes.c_size_t,
        ctypes.POINTER(ctypes.c_uint32),  # report
    ]
    return call


_call = _load()


class _Rooms:
    """What one call writes to."""

    __slots__ = ("line", "index", "report")

    def __init__(self):
        self.make(_LINE_ROOM, _INDEX_ROOM)
        self.report = (ctypes.c_uint32 * _REPORT_ROOM)()

    def make(self, line, index):
        self.line = (ctypes.c_char * line)()
        self.index = (ctypes.c_uint16 * index)()

    def grow(self):
        self.make(2 * len(self.line), 2 * len(self.index))

    def drawn(self) -> Drawn:
        report = self.report
        carbons, sites, start = {}, {}, 0
        for at in range(_LIST, _LIST + 2 * report[_LISTS], 2):
            end = start + report[at + 1]
            carbons[report[at]] = tuple(self.index[start:end])
            start = end
        for at in range(_SITE, _SITE + 2 * report[_SITES], 2):
            sites[report[at]] = report[at + 1]
        return Drawn(self.line[: report[_LENGTH]].decode("ascii"), _Fixed(carbons), _Fixed(sites))


# Rooms that no call is using. A call takes its rooms out and puts them back, so that no
# two calls share any: not those of two threads, and not one that a signal handler or a
# finalizer makes in the middle of another. `pop` and `append` of a list are atomic.
_unused = []


def _bytes(text: Text, name: str) -> bytes:
    if isinstance(text, bytes):
        return text
    if isinstance(text, str):
        # Half a surrogate pair has no UTF-8; it is passed on too, so that every str has an answer.
        return text.encode("utf-8", "surrogatepass")
    raise TypeError(f"{name} must be bytes or str, not {type(text).__name__}")


def _flag(swap: Union[bool, int]) -> bool:
    # A cell of a sheet is text, and "0" is true: whatever could be such a cell is no flag.
    if isinstance(swap, int) and swap in (0, 1):
        return bool(swap)
    raise TypeError(f"swap must be a bool, 0 or 1, not {swap!r}")


def draw(class_code: Text, tokens: Iterable[Text], tail: Text = b"", swap: bool = False) -> Drawn:
    """Draws one request, or raises `Refused`.

    class_code  FA, GL1, GL2, GL3, GP, CL, SB or SA
    tokens      the chain names in the order of their sn, as "18:1(9Z)"; "0:0" leaves a
                place without a chain
    tail        the head group's text, for the classes that have one
    swap        whether the chains may be exchanged, which the line then says: a bool, 0 or 1

    Texts are bytes or str; a str is passed on as its UTF-8 bytes. May be called from
    several threads at once.

    >>> draw("GP", ["2:0", "0:0"], tail="O").line
    'C(CO)(O)COC(=O)C'
    >>> draw("GL2", ["2:0", "2:0"], swap=True).line
    'C(CO)(OC(=O)C)COC(=O)C |$;;;sn2;;;;;sn1$| swappable(sn1,sn2)'
    """
    if isinstance(tokens, (bytes, str)):
        raise TypeError("tokens must be a list of chain names, not one name")
    code = _bytes(class_code, "class_code")
    end = _bytes(tail, "tail")
    flag = _flag(swap)
    names = [_bytes(token, f"token {place}") for place, token in enumerate(tokens, 1)]
    # The call has places for four; of a fifth it only needs to know that it is there.
    places = []
    for name in (names + 4 * [b""])[:4]:
        places += [name, len(name)]

    try:
        rooms = _unused.pop()
    except IndexError:
        rooms = _Rooms()
    try:
        while True:
            number = _call(
                code, len(code), flag, end, len(end), len(names), *places,
                rooms.line, len(rooms.line), rooms.index, len(rooms.index), rooms.report,
            )
            if number == 0:
                return rooms.drawn()
            if number != _SHORT_SLICE:
                raise Refused(number, rooms.report[_TOKEN])
            rooms.grow()
    finally:
        _unused.append(rooms)
