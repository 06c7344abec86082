"""What Grid and Flume have in common: buffers of one's own, views of them, what can be counted in them, and water laid cell by cell."""

from itertools import compress
from threading import RLock

from .library import i64, size
from .refusal import Refused
from .values import EMPTY, FLUID, FULL, INTERFACE, ONE, WALL, Counts, Water, several

# The density of water, and so the mass of a fluid cell, and how far from 0 the mass of an interface cell may lie.
DENSITY_LEAST, DENSITY_MOST = 294_912, 1_179_648
MASS_MOST = 2_359_296


class Holding:
    """Two sets of buffers, the state and where the next one goes, and the work space of a step, so that nothing is allocated while it runs.

    One thread at a time is let in; another that asks waits.
    """

    # A cell's neighbours, as vectors, and the parts 1 and on of water at rest, in 36ths of its density.
    _directions = ()
    _weights = ()
    _settings_type = None
    _site_type = None

    def __init__(self, sides, settings, site, first, second):
        self._sides = sides
        self.settings = settings
        self.site = site
        self._first = first
        self._second = second
        self._marks = bytearray(len(first.flags))
        self._lock = RLock()

    @property
    def sides(self):
        """The sides in cells."""
        return self._sides

    @property
    def settings(self):
        """p and gravity of the steps; they may be changed between steps."""
        return self._settings

    @settings.setter
    def settings(self, settings):
        self._settings = several("settings", settings, self._settings_type)

    @property
    def site(self):
        """Edge and origin, in millimetres; they may be changed."""
        return self._site

    @site.setter
    def site(self, site):
        self._site = several("site", site, self._site_type)

    @property
    def cells(self):
        """How many cells there are, walls included."""
        return len(self._first.flags)

    @property
    def flags(self):
        """A read-only view of the state: one flag a cell, EMPTY, INTERFACE, FLUID or WALL. It follows what is done; numpy.asarray takes it uncopied."""
        return memoryview(self._first.flags).toreadonly()

    @property
    def parts(self):
        """A read-only view of the state: part k of cell c at 19*c + k (flume 9*c + k); a cell's density is the sum of its parts."""
        return memoryview(self._first.parts).toreadonly()

    @property
    def masses(self):
        """A read-only view of the state: one mass a cell, its water in units, ONE being a full cell under no pressure."""
        return memoryview(self._first.masses).toreadonly()

    @property
    def fills(self):
        """A read-only view of the state: one fill a cell, how full it is, 0 to FULL."""
        return memoryview(self._first.fills).toreadonly()

    @property
    def carry(self):
        """A read-only view of the state: the carry, and in a Grid what was poured and what was taken, in units."""
        return memoryview(self._first.carry).toreadonly()

    def counts(self):
        """How many cells of each flag there are, as Counts."""
        with self._lock:
            return Counts(*(self._first.flags.count(flag) for flag in (EMPTY, INTERFACE, FLUID, WALL)))

    def water(self):
        """The water balance in units, whole numbers all, as Water: fluid, interface, carry, poured, taken, and by them total and balance."""
        with self._lock:
            flags, masses = self._first.flags, self._first.masses
            in_cells = (sum(compress(masses, flags.translate(_ONLY[flag]))) for flag in (FLUID, INTERFACE))
            return Water(*in_cells, *self._first.carry)

    def total(self):
        """All the water in units: what no step changes by one."""
        return self.water().total

    def set_wall(self, cell):
        """Makes a cell wall; water that it held is gone. Refusal 13 where there is no such cell."""
        with self._lock:
            self._blank(self._within(cell), WALL)

    def set_empty(self, cell):
        """Makes an inner cell empty; water that it held is gone, and fluid neighbours become interface and keep theirs. Refusals 13, 4."""
        with self._lock:
            cell = self._inside(cell)
            self._blank(cell, EMPTY)
            for near in self._neighbours(cell):
                if self._first.flags[near] == FLUID:
                    self._flag(near, INTERFACE)

    def set_fluid(self, cell, mass=ONE):
        """Fills an inner cell with water at rest of this mass, 294,912 to 1,179,648 units; empty neighbours become interface without water.

        What is laid is new water: the total changes. Refusals 13, 4 for an outer cell, 6 for a mass out of range.
        """
        with self._lock:
            cell, mass = self._inside(cell), i64.number("mass", mass)
            if not DENSITY_LEAST <= mass <= DENSITY_MOST:
                raise Refused(Refused.STATE, cell)
            self._fill(cell, FLUID, mass, mass)
            for near in self._neighbours(cell):
                if self._first.flags[near] == EMPTY:
                    self._fill(near, INTERFACE, ONE, 0)

    def set_interface(self, cell, mass=0):
        """Makes an inner cell interface, with water at rest of this mass, within +-2,359,296 units; without water it can be poured into.

        What is laid is new water: the total changes. Refusals 13, 4 for an outer cell, 6 for a mass out of range.
        """
        with self._lock:
            cell, mass = self._inside(cell), i64.number("mass", mass)
            if not -MASS_MOST <= mass <= MASS_MOST:
                raise Refused(Refused.STATE, cell)
            self._fill(cell, INTERFACE, ONE, mass)

    def __eq__(self, other):
        """Whether sides, settings, site and state are the same."""
        if type(other) is not type(self):
            return NotImplemented
        with self._lock:
            mine = (self._sides, self._settings, self._site, tuple(self._first))
        return mine == (other._sides, other._settings, other._site, tuple(other._first))

    __hash__ = None

    def __repr__(self):
        counts, water = self.counts(), self.water()
        sides = " x ".join(str(side) for side in self._sides)
        return f"<{type(self).__name__} of {sides} cells: {counts.fluid} fluid, {counts.interface} interface, {water.total:,} units of water>"

    def _within(self, cell):
        """The number of a cell that is there."""
        cell = size.number("cell", cell)
        if cell >= self.cells:
            raise Refused(Refused.OUTSIDE)
        return cell

    def _inside(self, cell):
        """The number of a cell inside the outer layer."""
        cell = self._within(cell)
        if is_outer(self._sides, cell):
            raise Refused(Refused.FLAG, cell)
        return cell

    def _neighbours(self, cell):
        """The neighbours of a cell inside the outer layer."""
        for direction in self._directions:
            yield cell + sum(way * pace for way, pace in zip(direction, paces(self._sides)))

    def _flag(self, cell, flag):
        """Gives a cell a flag."""
        self._first.flags[cell] = flag

    def _blank(self, cell, flag):
        """A cell without water."""
        self._lay(cell, flag, [0] * (len(self._weights) + 1), 0, 0)

    def _fill(self, cell, flag, density, mass):
        """Water at rest of a density in its range."""
        moving = [weight * density // 36 for weight in self._weights]
        self._lay(cell, flag, [density - sum(moving)] + moving, mass, min(max(FULL * mass // density, 0), FULL))

    def _lay(self, cell, flag, parts, mass, fill):
        self._flag(cell, flag)
        for k, part in enumerate(parts, cell * len(parts)):
            self._first.parts[k] = part
        self._first.masses[cell] = mass
        self._first.fills[cell] = fill


# Bytes that keep one flag, as 1, and make all others 0.
_ONLY = {flag: bytes(int(byte == flag) for byte in range(256)) for flag in (FLUID, INTERFACE)}


def paces(sides):
    """How far the next cell along each axis is: 1, nx, and so on."""
    pace, told = 1, []
    for side in sides:
        told.append(pace)
        pace *= side
    return told


def position(sides, cell):
    """Where a cell lies, axis by axis."""
    told = []
    for side in sides:
        told.append(cell % side)
        cell //= side
    return tuple(told)


def is_outer(sides, cell):
    """Whether a cell lies in the outer layer, which is all wall."""
    return any(at in (0, side - 1) for at, side in zip(position(sides, cell), sides))


def walled(sides, cells):
    """The flags of a box or section of empty cells with walls around."""
    return bytearray(WALL if is_outer(sides, cell) else EMPTY for cell in range(cells))


def copied(mine, theirs):
    """Copies buffers, byte by byte; ValueError where the lengths differ."""
    for buffer, other in zip(mine, theirs):
        memoryview(buffer).cast("B")[:] = bytes_of("state", other)


def bytes_of(name, value):
    """A copy of the bytes of a buffer."""
    try:
        return memoryview(value).tobytes()
    except TypeError:
        raise TypeError(f"{name}: bytes are wanted, not {type(value).__name__}") from None
