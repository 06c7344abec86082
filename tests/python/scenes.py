"""Buffers and scenes that the tests share: document 01's cases T, U and F, and the independent program."""

import ctypes
import os
import subprocess
from array import array
from pathlib import Path

from skwarzyna import INTERFACE, WALL, FlumeSettings, FlumeSides, Held, Settings, Sides, State
from skwarzyna.holding import is_outer

TOP = Path(__file__).resolve().parents[2]
ORACLE = TOP / "oracle/target/release/oracle"
RECORD_T = (TOP / "crates/gridstep/stdin").read_bytes()

THREE = Sides(3, 3, 3)
FALLING = Settings(1024, 0, 0, -1024)
STILL = Settings(2037, 0, 0, 0)
MIDDLE = 13
MASS = 294_912
REST = (196_608,) + (32_768,) * 6 + (16_384,) * 12

FLUME_THREE = FlumeSides(3, 3)
FLUME_FALLING = FlumeSettings(1024, 0, -1024)
FLUME_STILL = FlumeSettings(2037, 0, 0)
FLUME_MIDDLE = 4
FLUME_REST = (262_144,) + (65_536,) * 4 + (16_384,) * 4


def by_array(code, count):
    """So many numbers of an array's type, all 0."""
    return bytearray(count) if code == "B" else array(code, bytes(array(code).itemsize * count))


CTYPES = {"B": ctypes.c_uint8, "i": ctypes.c_int32, "I": ctypes.c_uint32, "q": ctypes.c_int64, "Q": ctypes.c_uint64, "H": ctypes.c_uint16, "f": ctypes.c_float}


def by_ctypes(code, count):
    """The same as a ctypes array."""
    return (CTYPES[code] * count)()


def blank(sides, make=by_array):
    """A set and index of a box with walls around empty cells."""
    nx, ny, nz = sides
    cells = nx * ny * nz
    made = Held(
        make("B", cells), make("i", 19 * cells), make("i", cells), make("I", cells), make("q", 3), make("Q", (cells + 63) // 64), make("Q", 1)
    )
    for cell in range(cells):
        made.flags[cell] = WALL if is_outer(sides, cell) else 0
    return made


def flume_blank(sides, make=by_array):
    """A set of a flume with walls around empty cells."""
    cells = sides[0] * sides[1]
    made = State(make("B", cells), make("i", 9 * cells), make("i", cells), make("I", cells), make("q", 1))
    for cell in range(cells):
        made.flags[cell] = WALL if is_outer(sides, cell) else 0
    return made


def lay(held, cell, mass=MASS, parts=REST, flag=INTERFACE):
    """Water in a cell, and the index with it."""
    held.flags[cell] = flag
    for k, part in enumerate(parts):
        held.parts[len(parts) * cell + k] = part
    held.masses[cell] = mass
    held.fills[cell] = min(max(65_536 * mass // sum(parts), 0), 65_536)
    if isinstance(held, Held) and flag == INTERFACE:
        held.words[cell // 64] |= 1 << cell % 64
        held.count[0] += 1
    return held


def case_t(make=by_array):
    return lay(blank(THREE, make), MIDDLE)


def case_u(make=by_array):
    parts = list(REST)
    parts[1] = parts[2] = 33_768
    parts[5] = parts[6] = 31_768
    return lay(blank(THREE, make), MIDDLE, parts=parts)


def case_f(make=by_array):
    return lay(flume_blank(FLUME_THREE, make), FLUME_MIDDLE, parts=FLUME_REST)


def flume_case_u(make=by_array):
    parts = list(FLUME_REST)
    parts[1] = parts[2] = 66_536
    parts[3] = parts[4] = 64_536
    return lay(flume_blank(FLUME_THREE, make), FLUME_MIDDLE, parts=parts)


def told(held):
    """All the numbers of a set, to compare."""
    return [list(buffer) for buffer in held]


def parts_of(held, cell, parts=19):
    return list(held.parts[parts * cell : parts * (cell + 1)])


def oracle(*arguments, given=b""):
    """What the independent program prints."""
    return subprocess.run([ORACLE, *map(str, arguments)], input=given, stdout=subprocess.PIPE, check=True).stdout


def python(text, **environment):
    """What Python says of a text, in a process of its own: status, standard output, standard error."""
    done = subprocess.run(
        [os.environ.get("PYTHON", "python3"), "-c", text],
        env={**os.environ, "PYTHONPATH": str(TOP / "bindings/python"), **environment},
        stdout=subprocess.PIPE,
        stderr=subprocess.PIPE,
        text=True,
        check=False,
    )
    return done.returncode, done.stdout, done.stderr
