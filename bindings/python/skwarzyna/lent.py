"""The library's calls over buffers of one's own, of any length and content.

Grid and Flume make the same calls over buffers of theirs. These are for a host that has its own, as numpy arrays, or that wants to be refused: any
object with the buffer protocol is taken whose numbers are of the right type and stand one behind the other, of whatever shape. What is lent for
writing must be writable, and must not be lent twice to one call. A buffer that is lent for reading and is read-only is copied first.

Sides, settings, sites and states are the tuples of those names, or plain tuples of as many. Any whole number can be handed over that has room in 64
bits; what is out of range there is refused by the library, by number and place (Refused), and so are buffers of wrong lengths (refusal 2).
TypeError and ValueError are for what cannot be handed over at all.

While a call runs other threads of Python do; they must not write to what is lent to it.
"""

from .library import CALLS
from .values import (
    KINDS,
    CellPoint,
    Depth,
    FlumeSettings,
    FlumeSides,
    FlumeSite,
    Head,
    Held,
    Next,
    Point,
    Settings,
    Sides,
    Site,
    State,
    several,
)

__all__ = [
    "check",
    "load",
    "pour",
    "take",
    "surface_count",
    "surface_next",
    "step",
    "run",
    "mirror",
    "read",
    "write",
    "place",
    "point",
    "depth",
    "profile",
    "pools",
    "invert_read",
    "depths_write",
    "scheme_join",
    "scheme_part",
    "wall_add",
    "wall_remove",
    "flume_check",
    "flume_step",
    "flume_run",
    "flume_mirror",
    "flume_read",
    "flume_write",
]


def _sides(value):
    return several("sides", value, Sides)


def _settings(value):
    return several("settings", value, Settings)


def _site(value):
    return several("site", value, Site)


def _state(value, name="state"):
    # A Held has a state in front.
    return value.state if isinstance(value, Held) else several(name, value, State)


def _held(value, name="held"):
    return several(name, value, Held)


def check(sides, state):
    """Whether a state is good: returns if so. Refusals 1, 2, 4, 5, 6."""
    CALLS["skw_check"](*_state(state), *_sides(sides))


def load(sides, held):
    """Whether a state is good and its index true: returns if so. Refusals 1, 2, 4, 5, 6, 14."""
    CALLS["skw_load"](*_held(held), *_sides(sides))


def pour(sides, state, cell, amount):
    """Pours an amount, 1 to 589,824 units, into an interface cell; what was moved, which is the amount.

    Masses, fills and carry are written. Refusals 1, 2, 4, 5, 6, 13, 15, 16.
    """
    return CALLS["skw_pour"](*_state(state), *_sides(sides), cell, amount)["moved"]


def take(sides, state, cell, amount):
    """Takes from an interface cell the smaller of an amount, 1 to 589,824 units, and its mass, nothing if that is not above 0; what was moved.

    Masses, fills and carry are written. Refusals 1, 2, 4, 5, 6, 13, 15, 16.
    """
    return CALLS["skw_take"](*_state(state), *_sides(sides), cell, amount)["moved"]


def surface_count(sides, words):
    """How many interface cells the words of an index hold, by their bits. Refusals 1, 2."""
    return CALLS["skw_surface_count"](words, *_sides(sides))["cells"]


def surface_next(sides, words, start):
    """The lowest interface cell at or after the start, 0 to N, by the words of an index, as a Next. Refusals 1, 2, 13."""
    told = CALLS["skw_surface_next"](words, *_sides(sides), start)
    return Next(told["cell"] if told["kind"] == 1 else None, told["read"])


def step(sides, settings, first, second, marks, turbulent=False):
    """The state one step after the first Held, and its index, into the second; marks is N bytes of work space, all 0 afterwards.

    Refusals 1 to 6 and 14 write nothing. After 7 or 8 the second is a copy of the first, and the marks are 0.
    """
    CALLS["skw_step"](*_held(first, "first"), *_held(second, "second"), marks, *_sides(sides), *_settings(settings), turbulent)


def run(sides, settings, steps, first, second, marks, turbulent=False):
    """So many steps, 0 to 1,000, from the state in the first Held, until one is refused, all in one mode.

    Refusals 9, 1 to 6 and 14 write nothing. Else both hold the state reached and its index, after 7 or 8 too, and the marks are 0; the refusal's count
    says how many steps were made.
    """
    CALLS["skw_run"](steps, *_held(first, "first"), *_held(second, "second"), marks, *_sides(sides), *_settings(settings), turbulent)


def mirror(sides, first, second, axis):
    """The first State reflected in an axis, 0 x, 1 y, 2 z, into the second, a Held, with its index. Gravity is no part of it.

    Refusals 1, 2, 3, 4, 5, 6 write nothing.
    """
    CALLS["skw_mirror"](*_state(first, "first"), *_held(second, "second"), *_sides(sides), axis)


def read(record, parts, masses, fills, carry, words, count):
    """Reads a grid record, bytes, into a set without its flags, and makes the index of these; a Head.

    The record has its sides in bytes 4 to 15. Refusals 10, 11 of its sections; 1, 2 after the first, 4 after the fifth; at the end 10, 3, 5, 6. They
    write nothing.
    """
    told = CALLS["skw_read"](record, parts, masses, fills, carry, words, count)
    return _head(told, Sides, Settings, Site)


def _head(told, *groups):
    return Head(*(group(*(told[field] for field in group._fields)) for group in groups), told["flags_from"], told["flags_to"])


def write(sides, settings, site, state, room):
    """Writes the record of a state from the front of the room, and answers its length in bytes; room past it stays as it was.

    Refusals 1 to 6, and 12, whose place is the bytes needed, write nothing.
    """
    return CALLS["skw_write"](*_sides(sides), *_settings(settings), *_site(site), *_state(state), room)["bytes"]


def place(sides, site, point):
    """The number of the cell that holds a survey point (x, y, z) in whole millimetres. Refusals 1, 3, 13."""
    return CALLS["skw_place"](*_sides(sides), *_site(site), *several("point", point, Point))["cell"]


def point(sides, fills, cell):
    """A cell's centre and fill, as a CellPoint. Refusals 1, 2, 13, 6."""
    told = CALLS["skw_point"](*_sides(sides), fills, cell)
    return CellPoint(told["x"], told["y"], told["z"], told["fill"])


def depth(sides, flags, fills, x, y):
    """The water in column (x, y), as a Depth. Refusals 1, 2, 13, and of that column 4, 6."""
    told = CALLS["skw_depth"](*_sides(sides), flags, fills, x, y)
    return Depth(KINDS[told["kind"]], told["depth"])


def profile(sides, site, flags, fills, chainages, points, kinds, depths):
    """The depth at each of M points, 1 to 2,000: kinds and depths are written, and the number of the deepest point is answered, None if none is wet.

    chainages    M signed 64-bit numbers, in millimetres, each above the one before
    points       3*M signed 64-bit numbers, in millimetres, x, y and z of point i at 3*i, 3*i + 1 and 3*i + 2
    kinds        M unsigned bytes: 1 solid, 2 dry, 3 deep, 4 outside
    depths       M 32-bit floats: the depth in cells, exact, 0 unless deep

    Refusals 1, 2, 22, 3 of the site, 23, 3 of a point, then by list order 4, 6 of its column. They write nothing.
    """
    told = CALLS["skw_profile"](*_sides(sides), *_site(site), flags, fills, chainages, points, kinds, depths)
    return told["deepest"] if told["wet"] else None


def pools(sides, state, counts, waters, marks, work):
    """Which water hangs together: how many pools there are.

    counts    unsigned 32-bit numbers, waters signed 64-bit ones: cells and water of pool k, at k - 1; (nx-1)*(ny-1)*(nz-1)//4 are always enough
    marks     N unsigned 16-bit numbers: for each cell the number of its pool, 0 where it is not liquid
    work      N unsigned 32-bit numbers of work space, all 0 afterwards

    Refusals 1, 2, 4, 5, 6 write nothing. After 21, whose place is how many pools there are, marks and work are 0.
    """
    return CALLS["skw_pools"](*_state(state), counts, waters, marks, work, *_sides(sides))["pools"]


def invert_read(text, nz, oz, settings, held):
    """Reads an ASCII height grid, bytes, into a dry set and its index, nz cells high from a height of oz millimetres; its sides and site.

    Refusals 19, 1, 2, 3, 20 write nothing; the place of 19 and 20 is a line, from 1.
    """
    told = CALLS["skw_invert_read"](text, nz, oz, *_settings(settings), *_held(held))
    return Sides(told["nx"], told["ny"], nz), Site(told["edge"], told["ox"], told["oy"], oz)


def depths_write(sides, site, state, room):
    """Writes the depth map of a state as an ASCII height grid from the front of the room, and answers its length; no grid's is above 98,406 bytes.

    The site's oz is not looked at. Refusals 1 to 6, and 12, whose place is the bytes needed, write nothing.
    """
    edge, ox, oy, _ = _site(site)
    return CALLS["skw_depths_write"](*_sides(sides), edge, ox, oy, *_state(state), room)["bytes"]


def scheme_join(sides, map, state, grid):
    """The flags of a scheme's grid, N bytes: WALL where the map is 1, else the scheme's own flag. Refusals 1, 2, 4, 5, 6 write nothing.

    A scheme is a state beside a wall map, N bytes of 1 for wall and 0 for not, that two designers share; its flags are EMPTY, INTERFACE or FLUID, and
    EMPTY at walls of the map.
    """
    CALLS["skw_scheme_join"](map, *_state(state), grid, *_sides(sides))


def scheme_part(sides, grid, flags):
    """A scheme's own flags from the flags of its grid: EMPTY for every WALL. Refusals 1, 2, 4 write nothing."""
    CALLS["skw_scheme_part"](grid, flags, *_sides(sides))


def wall_add(sides, map, asker, other, cell):
    """A wall is asked for in an inner cell: the map's byte becomes 1 if the cell is empty in both schemes.

    Refusals 1, 2, 4, 5, 6 of the asker's scheme, 2, 4, 5, 6 of the other's, 13, 17, 18 write nothing.
    """
    CALLS["skw_wall_add"](map, *_state(asker, "asker"), *_state(other, "other"), *_sides(sides), cell)


def wall_remove(sides, map, asker, other, cell):
    """An inner wall is to be taken out: the map's byte becomes 0 if no neighbour is fluid in either scheme. Refusals as of wall_add."""
    CALLS["skw_wall_remove"](map, *_state(asker, "asker"), *_state(other, "other"), *_sides(sides), cell)


def _flume_sides(value):
    return several("sides", value, FlumeSides)


def _flume_settings(value):
    return several("settings", value, FlumeSettings)


def flume_check(sides, state):
    """Whether a state of a flume is good: returns if so. Refusals 1, 2, 4, 5, 6."""
    CALLS["skw_flume_check"](*_state(state), *_flume_sides(sides))


def flume_step(sides, settings, first, second, marks, turbulent=False):
    """The state one step after the first State into the second; marks is N bytes of work space, all 0 afterwards.

    Refusals 1 to 6 write nothing. After 7 or 8 the second is a copy of the first, and the marks are 0.
    """
    first, second = _state(first, "first"), _state(second, "second")
    CALLS["skw_flume_step"](*first, *second, marks, *_flume_sides(sides), *_flume_settings(settings), turbulent)


def flume_run(sides, settings, steps, first, second, marks, turbulent=False):
    """So many steps, 0 to 1,000, from the first State, until one is refused, all in one mode.

    Refusals 9 and 1 to 6 write nothing. Else both hold the state reached, after 7 or 8 too, and the marks are 0; the refusal's count says how many
    steps were made.
    """
    first, second = _state(first, "first"), _state(second, "second")
    CALLS["skw_flume_run"](steps, *first, *second, marks, *_flume_sides(sides), *_flume_settings(settings), turbulent)


def flume_mirror(sides, first, second, axis):
    """The first State reflected in an axis, 0 x, 2 z, into the second. Refusals 1, 2, 3, 4, 5, 6 write nothing."""
    CALLS["skw_flume_mirror"](*_state(first, "first"), *_state(second, "second"), *_flume_sides(sides), axis)


def flume_read(record, parts, masses, fills, carry):
    """Reads a record of a flume, bytes, into a set without its flags; a Head. It has its sides in bytes 4 to 11. Refusals as of read."""
    return _head(CALLS["skw_flume_read"](record, parts, masses, fills, carry), FlumeSides, FlumeSettings, FlumeSite)


def flume_write(sides, settings, site, state, room):
    """Writes the record of a flume from the front of the room, and answers its length in bytes. Refusals 1 to 6 and 12 write nothing."""
    site = several("site", site, FlumeSite)
    return CALLS["skw_flume_write"](*_flume_sides(sides), *_flume_settings(settings), *site, *_state(state), room)["bytes"]
