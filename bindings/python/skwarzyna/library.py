"""The compiled library: where it is found, and its calls as include/skwarzyna.h declares them.

A call is described once, argument by argument, and made in one way (Call): whatever a caller hands over is looked at before the library sees an address.
"""

import ctypes
import operator
import os
import sys
from pathlib import Path

from .refusal import Refused

HOW = """\
The shared library is made, from a clone of the project, by
    bindings/object --shared
which prints its path. Either name it,
    export SKWARZYNA_LIBRARY=$(bindings/object --shared)
or copy it into the package's folder, {folder}"""


def found():
    """The path of the compiled library: what SKWARZYNA_LIBRARY names, else libskwarzyna.so in the package's folder or beside that."""
    folder = Path(__file__).resolve().parent
    how = HOW.format(folder=folder)
    named = os.environ.get("SKWARZYNA_LIBRARY")
    if named:
        if not os.path.isfile(named):
            raise ImportError(f"SKWARZYNA_LIBRARY names {named}, and there is no such file.\n{how}")
        # With a folder in front, so that the loader looks there and nowhere else.
        return os.path.abspath(named)
    for place in (folder, folder.parent):
        if (place / "libskwarzyna.so").is_file():
            return str(place / "libskwarzyna.so")
    raise ImportError(f"there is no libskwarzyna.so in {folder} or beside it, and SKWARZYNA_LIBRARY is not set.\n{how}")


def loaded():
    """The compiled library, or an ImportError that says how to make it."""
    path = found()
    if ctypes.sizeof(ctypes.c_size_t) != 8:
        raise ImportError("skwarzyna is for 64-bit processors")
    try:
        return ctypes.CDLL(path)
    except OSError as error:
        raise ImportError(f"{path} is not loaded: {error}\n{HOW.format(folder=Path(__file__).resolve().parent)}") from error


class Kind:
    """A type of number as C has it."""

    def __init__(self, name, ctype, codes, least=None, most=None):
        self.name = name
        self.ctype = ctype
        self.size = ctypes.sizeof(ctype)
        # Letters of the buffer protocol for it; the size tells those of one letter apart.
        self.codes = codes
        self.least = least
        self.most = most

    def number(self, name, value):
        """A whole number that the type holds."""
        if isinstance(value, bool):
            raise TypeError(f"{name}: a whole number is wanted, not a bool")
        try:
            number = operator.index(value)
        except TypeError:
            raise TypeError(f"{name}: a whole number is wanted, not {type(value).__name__}") from None
        if number < self.least or number > self.most:
            raise ValueError(f"{name}: a whole number of {self.least} to {self.most} is wanted")
        return number


SIGNED, UNSIGNED = "bhilqn", "BHILQN"
u8 = Kind("unsigned bytes", ctypes.c_uint8, UNSIGNED + "c")
u16 = Kind("unsigned 16-bit numbers", ctypes.c_uint16, UNSIGNED)
u32 = Kind("unsigned 32-bit numbers", ctypes.c_uint32, UNSIGNED)
u64 = Kind("unsigned 64-bit numbers", ctypes.c_uint64, UNSIGNED)
i32 = Kind("signed 32-bit numbers", ctypes.c_int32, SIGNED)
i64 = Kind("signed 64-bit numbers", ctypes.c_int64, SIGNED, -(2**63), 2**63 - 1)
size = Kind("sizes", ctypes.c_size_t, UNSIGNED, 0, 2**64 - 1)
f32 = Kind("32-bit floats", ctypes.c_float, "fd")
NATIVE = {"little": "@=<", "big": "@=>"}[sys.byteorder]


class Lent:
    """A slice that is lent for one call: its address and length, held in place until it is let go."""

    def __init__(self, name, kind, value, written):
        self.name = name
        self.written = written
        try:
            view = memoryview(value)
        except TypeError:
            raise TypeError(
                f"{name}: a buffer of {kind.name} is wanted (array.array, bytearray, a ctypes or numpy array), not {type(value).__name__}"
            ) from None
        code = view.format[1:] if view.format[:1] in NATIVE else view.format
        if len(code) != 1 or code not in kind.codes or view.itemsize != kind.size:
            raise TypeError(f"{name}: a buffer of {kind.name} is wanted, not one of format {view.format!r} with {view.itemsize} bytes a number")
        if not view.c_contiguous:
            raise ValueError(f"{name}: the buffer's numbers do not stand one behind the other in memory (it is not C-contiguous)")
        if written and view.readonly:
            raise ValueError(f"{name}: the buffer is read-only, and this call writes to it")
        self.bytes = view.nbytes
        self.length = view.nbytes // kind.size
        if not self.bytes:
            self.held = ctypes.c_uint64()
        elif view.readonly:
            # A call that only reads is lent a copy of what cannot be written.
            self.held = ctypes.c_uint8.from_buffer(bytearray(view))
        else:
            # Holds the buffer, so that it is neither freed nor made shorter or longer meanwhile.
            self.held = ctypes.c_uint8.from_buffer(view)
        self.address = ctypes.addressof(self.held)
        if self.address % ctypes.alignment(kind.ctype):
            raise ValueError(f"{name}: the buffer begins at an address that is not aligned for {kind.name}")


def apart(lents):
    """That what is lent for writing overlaps nothing else, or a ValueError."""
    ahead, wrote = None, None
    for lent in sorted((lent for lent in lents if lent.bytes), key=lambda lent: lent.address):
        other = ahead if lent.written else wrote
        if other is not None and lent.address < other.address + other.bytes:
            raise ValueError(f"{lent.name} and {other.name}: the same memory is lent twice, and this call writes to it")
        # Of those so far the one that reaches furthest, and among what is written likewise.
        if ahead is None or lent.address + lent.bytes > ahead.address + ahead.bytes:
            ahead = lent
        if lent.written and (wrote is None or lent.address + lent.bytes > wrote.address + wrote.bytes):
            wrote = lent


class Read:
    """An argument: a slice that the call reads."""

    written = False

    def __init__(self, name, kind):
        self.name = name
        self.kind = kind
        self.types = (ctypes.c_void_p, ctypes.c_size_t)


class Written(Read):
    """An argument: a slice that the call writes."""

    written = True


class Number:
    """An argument: a whole number."""

    def __init__(self, name, kind):
        self.name = name
        self.kind = kind
        self.types = (kind.ctype,)


class Mode:
    """An argument: the mode, a bool."""

    name = "turbulent"
    types = (ctypes.c_bool,)


class Answer:
    """An argument: where the call puts a number that it answers."""

    def __init__(self, name, kind):
        self.name = name
        self.kind = kind
        self.types = (ctypes.POINTER(kind.ctype),)


class Call:
    """A call of the library."""

    def __init__(self, name, *arguments, counts=False):
        self.name = name
        self.arguments = arguments
        # A run returns its count, and its number through a pointer; every other call returns its number.
        self.counts = counts
        self.function = None

    def bind(self, library):
        """Looks the call up in the compiled library."""
        self.function = getattr(library, self.name)
        self.function.argtypes = [ctype for argument in self.arguments for ctype in argument.types]
        self.function.restype = ctypes.c_size_t if self.counts else ctypes.c_uint8

    def __call__(self, *values):
        """Looks at every value, makes the call, and hands back what it answers, by name; or raises Refused.

        TypeError for a value of a wrong type, ValueError for a number too wide for its type, or a buffer that is read-only where it is written, not
        in one piece, not aligned, or lent twice.
        """
        values = iter(values)
        told, lents, answers = [], [], {}
        try:
            for argument in self.arguments:
                if isinstance(argument, Answer):
                    answers[argument.name] = argument.kind.ctype()
                    told.append(ctypes.byref(answers[argument.name]))
                elif isinstance(argument, Read):
                    lents.append(Lent(argument.name, argument.kind, next(values), argument.written))
                    told += [lents[-1].address, lents[-1].length]
                elif isinstance(argument, Number):
                    told.append(argument.kind.number(argument.name, next(values)))
                else:
                    turbulent = next(values)
                    if not isinstance(turbulent, bool):
                        raise TypeError(f"turbulent: True or False is wanted, not {type(turbulent).__name__}")
                    told.append(turbulent)
            apart(lents)
            returned = self.function(*told)
        finally:
            # Whoever keeps the exception does not keep the buffers.
            lents.clear()
        answered = {name: number.value for name, number in answers.items()}
        number = answered.pop("number") if self.counts else returned
        if number:
            raise Refused(number, answered["place"], returned if self.counts else None)
        return answered


def read(slices, behind=""):
    """Arguments for these slices, to be read."""
    return [Read(name + behind, kind) for name, kind in slices]


def written(slices, behind=""):
    """Arguments for these slices, to be written."""
    return [Written(name + behind, kind) for name, kind in slices]


def numbers(kind, names):
    return [Number(name, kind) for name in names.split()]


def answers(kind, names):
    return [Answer(name, kind) for name in names.split()]


FLAGS, FILLS, MARKS = ("flags", u8), ("fills", u32), ("marks", u8)
WATER = [("parts", i32), ("masses", i32), FILLS, ("carry", i64)]
SET = [FLAGS, *WATER]
INDEX = [("words", u64), ("count", u64)]
WORDS = INDEX[:1]
MAP, ROOM = ("map", u8), ("room", u8)
SIDES = numbers(size, "nx ny nz")
SETTINGS = numbers(i64, "p gx gy gz")
SITE = numbers(i64, "edge ox oy oz")
FLUME_SIDES = numbers(size, "nx nz")
FLUME_SETTINGS = numbers(i64, "p gx gz")
FLUME_SITE = numbers(i64, "edge ox oz")
CELL = Number("cell", size)
PLACE = Answer("place", size)
ACT = [*read(SET[:2]), *written(SET[2:]), *SIDES, CELL, Number("amount", i64), Answer("moved", i64), PLACE]
CHANGE = [*written([MAP]), *read(SET), *read(SET, "2"), *SIDES, CELL, PLACE]
WROTE = [Answer("bytes", size), PLACE]

CALLS = {
    call.name: call
    for call in [
        Call("skw_check", *read(SET), *SIDES, PLACE),
        Call("skw_pour", *ACT),
        Call("skw_take", *ACT),
        Call("skw_load", *read(SET + INDEX), *SIDES, PLACE),
        Call("skw_surface_count", *read(WORDS), *SIDES, Answer("cells", size), PLACE),
        Call("skw_surface_next", *read(WORDS), *SIDES, Number("start", size), Answer("kind", u8), *answers(size, "cell read place")),
        Call("skw_step", *read(SET + INDEX), *written(SET + INDEX, "2"), *written([MARKS]), *SIDES, *SETTINGS, Mode(), PLACE),
        Call(
            "skw_run",
            Number("steps", size),
            *written(SET + INDEX),
            *written(SET + INDEX, "2"),
            *written([MARKS]),
            *SIDES,
            *SETTINGS,
            Mode(),
            Answer("number", u8),
            PLACE,
            counts=True,
        ),
        Call(
            "skw_read",
            *read([("rec", u8)]),
            *written(WATER + INDEX),
            *answers(size, "nx ny nz"),
            *answers(i64, "p gx gy gz edge ox oy oz"),
            *answers(size, "flags_from flags_to place"),
        ),
        Call("skw_write", *SIDES, *SETTINGS, *SITE, *read(SET), *written([ROOM]), *WROTE),
        Call("skw_depths_write", *SIDES, *SITE[:3], *read(SET), *written([ROOM]), *WROTE),
        Call(
            "skw_invert_read",
            *read([("text", u8)]),
            Number("nz", size),
            Number("oz", i64),
            *SETTINGS,
            *written(SET + INDEX),
            *answers(size, "nx ny"),
            *answers(i64, "edge ox oy"),
            PLACE,
        ),
        Call("skw_place", *SIDES, *SITE, *numbers(i64, "x y z"), *answers(size, "cell place")),
        Call("skw_point", *SIDES, *read([FILLS]), CELL, *answers(f32, "x y z fill"), PLACE),
        Call("skw_depth", *SIDES, *read([FLAGS, FILLS]), *numbers(size, "x y"), Answer("kind", u8), Answer("depth", f32), PLACE),
        Call(
            "skw_profile",
            *SIDES,
            *SITE,
            *read([FLAGS, FILLS, ("chainages", i64), ("points", i64)]),
            *written([("kinds", u8), ("depths", f32)]),
            Answer("wet", u8),
            *answers(size, "deepest place"),
        ),
        Call(
            "skw_pools",
            *read(SET),
            *written([("counts", u32), ("waters", i64), ("marks", u16), ("work", u32)]),
            *SIDES,
            *answers(size, "pools place"),
        ),
        Call("skw_mirror", *read(SET), *written(SET + INDEX, "2"), *SIDES, Number("axis", size), PLACE),
        Call("skw_scheme_join", *read([MAP] + SET), *written([("grid", u8)]), *SIDES, PLACE),
        Call("skw_scheme_part", *read([("grid", u8)]), *written([FLAGS]), *SIDES, PLACE),
        Call("skw_wall_add", *CHANGE),
        Call("skw_wall_remove", *CHANGE),
        Call("skw_flume_check", *read(SET), *FLUME_SIDES, PLACE),
        Call("skw_flume_step", *read(SET), *written(SET, "2"), *written([MARKS]), *FLUME_SIDES, *FLUME_SETTINGS, Mode(), PLACE),
        Call(
            "skw_flume_run",
            Number("steps", size),
            *written(SET),
            *written(SET, "2"),
            *written([MARKS]),
            *FLUME_SIDES,
            *FLUME_SETTINGS,
            Mode(),
            Answer("number", u8),
            PLACE,
            counts=True,
        ),
        Call("skw_flume_mirror", *read(SET), *written(SET, "2"), *FLUME_SIDES, Number("axis", size), PLACE),
        Call(
            "skw_flume_read",
            *read([("rec", u8)]),
            *written(WATER),
            *answers(size, "nx nz"),
            *answers(i64, "p gx gz edge ox oz"),
            *answers(size, "flags_from flags_to place"),
        ),
        Call("skw_flume_write", *FLUME_SIDES, *FLUME_SETTINGS, *FLUME_SITE, *read(SET), *written([ROOM]), *WROTE),
    ]
}


def bound():
    """Looks every call up in the library."""
    library = loaded()
    for call in CALLS.values():
        try:
            call.bind(library)
        except AttributeError:
            raise ImportError(f"{library._name} is not the skwarzyna library, or another one's: it lacks {call.name}") from None


bound()
