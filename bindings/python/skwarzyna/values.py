"""What goes into calls and comes out of them: plain tuples with names."""

from typing import Any, NamedTuple, Optional, Tuple

# Flags of cells.
EMPTY = 0
INTERFACE = 1
FLUID = 2
WALL = 3

# One density unit: the water of a full cell under no pressure.
ONE = 589_824
# The fill of a full cell.
FULL = 65_536
# Parts of a cell of the box, and of the flume.
PARTS = 19
FLUME_PARTS = 9

# Axes of mirrors, by the library's numbers; the flume has no y.
AXES = {"x": 0, "y": 1, "z": 2}


def several(name, value, group):
    """A tuple of this group, of a tuple or list of as many."""
    fields = ", ".join(group._fields)
    if not isinstance(value, (tuple, list)):
        raise TypeError(f"{name}: a tuple of {fields} is wanted, not {type(value).__name__}")
    if len(value) != len(group._fields):
        raise ValueError(f"{name}: {len(group._fields)} are wanted, {fields}, not {len(value)}")
    return group(*value)


class Sides(NamedTuple):
    """The sides of a grid in cells: each 3 to 128, their product at most 262,144. Cell (x, y, z) has the number x + nx*(y + ny*z)."""

    nx: int
    ny: int
    nz: int


class Settings(NamedTuple):
    """What a step is made with, beside its mode.

    p             relaxation in 1,024ths, 1 to 2037: the lower, the more viscous the water
    gx, gy, gz    gravity in cells per step and step, in 1,048,576ths; their squares add up to at most 1,099,511
    """

    p: int = 1600
    gx: int = 0
    gy: int = 0
    gz: int = -105

    def mirrored(self, axis):
        """The settings with the sign of gravity's component along "x", "y" or "z" changed, as belongs to a mirrored grid."""
        return _mirrored(self, axis)


class Site(NamedTuple):
    """Where a grid lies.

    edge          the edge of a cell, 1 to 1,000 millimetres
    ox, oy, oz    the survey point of the corner of cell 0, in whole millimetres, each within +-10,000,000,000
    """

    edge: int = 50
    ox: int = 0
    oy: int = 0
    oz: int = 0


class FlumeSides(NamedTuple):
    """The sides of a flume in cells, x along and z up: each 3 to 512. Cell (x, z) has the number x + nx*z."""

    nx: int
    nz: int


class FlumeSettings(NamedTuple):
    """What a step of a flume is made with, beside its mode: p of 1 to 2037, and gravity, whose squares add up to at most 1,099,511."""

    p: int = 1600
    gx: int = 0
    gz: int = -105

    def mirrored(self, axis):
        """The settings with the sign of gravity's component along "x" or "z" changed, as belongs to a mirrored flume."""
        return _mirrored(self, axis)


class FlumeSite(NamedTuple):
    """Where a flume lies: the edge of a cell, 1 to 1,000 millimetres, and the survey point of its corner, each within +-10^10."""

    edge: int = 50
    ox: int = 0
    oz: int = 0


def _mirrored(settings, axis):
    field = f"g{axis}"
    if field not in settings._fields:
        raise ValueError(f"axis: {' or '.join(repr(name[1:]) for name in settings._fields[1:])} is wanted")
    return settings._replace(**{field: -getattr(settings, field)})


class State(NamedTuple):
    """One state as five buffers of one's own, of N cells; what is not said so is refused, not presumed.

    flags     N unsigned bytes: EMPTY, INTERFACE, FLUID or WALL; the outer cells are all wall
    parts     19*N (flume 9*N) signed 32-bit numbers, part k of cell c at 19*c + k; a cell's density is their sum
    masses    N signed 32-bit numbers: the water in a cell, ONE being a full one under no pressure
    fills     N unsigned 32-bit numbers: how full a cell is, 0 to FULL
    carry     3 signed 64-bit numbers: the carry, water that found no cell to go to; all that was poured; all that was taken (flume 1: the carry)
    """

    flags: Any
    parts: Any
    masses: Any
    fills: Any
    carry: Any


class Held(NamedTuple):
    """A state of the box with the index of its surface, as seven buffers of one's own: those of State, and

    words     N/64 rounded up unsigned 64-bit numbers: cell c is bit c % 64 of word c // 64, set if the cell is interface
    count     1 unsigned 64-bit number: how many interface cells there are
    """

    flags: Any
    parts: Any
    masses: Any
    fills: Any
    carry: Any
    words: Any
    count: Any

    @property
    def state(self):
        """The same without its index."""
        return State(*self[:5])


class Head(NamedTuple):
    """What a record's reader answers beside the buffers that it fills; the flags are the record's own bytes flags_from to before flags_to."""

    sides: Any
    settings: Any
    site: Any
    flags_from: int
    flags_to: int


class Next(NamedTuple):
    """The next interface cell, None if there is none, and how many words of the index were read to find it."""

    cell: Optional[int]
    words: int


class Point(NamedTuple):
    """A survey point in whole millimetres, each coordinate within +-10,000,000,000."""

    x: int
    y: int
    z: int


class CellPoint(NamedTuple):
    """The centre of a cell, in cells from the grid's corner, and its fill as a share of 1; all four exact."""

    x: float
    y: float
    z: float
    fill: float


class Depth(NamedTuple):
    """The water in a column of cells.

    kind     "solid", every cell is wall; "dry"; "deep"; of a profile's point also "outside", no cell of the grid holds it
    cells    the depth in cells, exact, above 0 if deep, else 0.0; times the edge it is in millimetres
    """

    kind: str
    cells: float


# By the numbers of include/skwarzyna.h.
KINDS = {1: "solid", 2: "dry", 3: "deep", 4: "outside"}


class Profile(NamedTuple):
    """A long profile: a Depth for each point of its list, and the number of the deepest, from 0, the first among equals, None if none is wet."""

    lines: Tuple[Depth, ...]
    deepest: Optional[int]


class Pool(NamedTuple):
    """Water that hangs together: a greatest set of liquid cells that chains of liquid neighbours join.

    number    from 1, in the order of the lowest cells
    cells     how many cells it has
    water     the sum of their masses, in units, which may be 0 or below
    lowest    its cell with the lowest number
    """

    number: int
    cells: int
    water: int
    lowest: int


class Pools(tuple):
    """The pools of a grid in the order of their numbers; marks has for each cell the number of its pool, 0 where it is not liquid."""

    def __new__(cls, pools, marks):
        made = super().__new__(cls, pools)
        made.marks = marks
        return made

    @property
    def water(self):
        """The water of all pools: the grid's total without the carry."""
        return sum(pool.water for pool in self)


class Water(NamedTuple):
    """The water balance in units, whole numbers all; ONE of them fill a cell.

    fluid, interface    water in fluid cells, and in interface cells
    carry               water that found no cell to go to
    poured, taken       all that was poured into the grid, and all that was taken from it
    """

    fluid: int
    interface: int
    carry: int
    poured: int = 0
    taken: int = 0

    @property
    def total(self):
        """All the water: what no step changes by one unit."""
        return self.fluid + self.interface + self.carry

    @property
    def balance(self):
        """The total and what was taken, less what was poured: what no step, pour or take changes by one unit."""
        return self.total + self.taken - self.poured


class Counts(NamedTuple):
    """How many cells of each flag there are."""

    empty: int
    interface: int
    fluid: int
    wall: int

    @property
    def liquid(self):
        """Fluid and interface cells."""
        return self.fluid + self.interface


def litres(units, edge):
    """Water in units as litres where a cell's edge is so many millimetres, to the nearest millilitre: "12.345"."""
    # In cubic millimetres a cell is edge**3, and a millilitre is 1,000 of them.
    share, whole = abs(units) * edge**3, ONE * 1000
    millilitres = (2 * share + whole) // (2 * whole)
    return f"{'-' if units < 0 and millilitres else ''}{millilitres // 1000:,}.{millilitres % 1000:03}"
