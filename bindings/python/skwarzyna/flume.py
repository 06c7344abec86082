"""A flume that owns its buffers: a long section in two dimensions, x along and z up, with a record and calls of its own."""

from . import lent
from .grid import numbers
from .holding import Holding, bytes_of, copied, position, walled
from .library import size
from .refusal import Refused
from .values import AXES, FLUME_PARTS, FlumeSettings, FlumeSides, FlumeSite, State


def state_of(cells):
    """Buffers of so many cells, all empty."""
    return State(bytearray(cells), numbers("i", FLUME_PARTS * cells), numbers("i", cells), numbers("I", cells), numbers("q", 1))


def cells_of(sides):
    """The number of cells of these sides, or refusal 1."""
    # The library tests the sides before it looks at the slices, of which none are lent.
    try:
        lent.flume_check(sides, state_of(0))
    except Refused as refused:
        if refused.number == Refused.SIDES:
            raise
    return sides.nx * sides.nz


class Flume(Holding):
    """A section of cells with its water, its settings and its site.

        flume = Flume(40, 12)                       a closed section of empty cells, walls around
        flume.set_fluid(flume.cell(1, 1))           a cell of water; empty neighbours become interface
        flume.run(100)                              a hundred steps with flume.settings
        flume.water().total                         to the unit what it was before

    Sides are 3 to 512 cells each (refusal 1). Water is counted in units, whole numbers, 589,824 (ONE) to a full cell. What is refused raises Refused
    and, unless said, changes nothing. There is no index, no pour and no take.
    """

    _directions = ((1, 0), (-1, 0), (0, 1), (0, -1), (1, 1), (-1, -1), (1, -1), (-1, 1))
    _weights = (4,) * 4 + (1,) * 4
    _settings_type = FlumeSettings
    _site_type = FlumeSite

    def __init__(self, nx, nz, settings=FlumeSettings(), site=FlumeSite()):
        sides = FlumeSides(size.number("nx", nx), size.number("nz", nz))
        first = state_of(cells_of(sides))
        first.flags[:] = walled(sides, len(first.flags))
        super().__init__(sides, settings, site, first, state_of(len(first.flags)))

    @classmethod
    def _holding(cls, sides, settings, site, first):
        flume = cls.__new__(cls)
        Holding.__init__(flume, sides, settings, site, first, state_of(len(first.flags)))
        return flume

    @classmethod
    def of(cls, sides, state, settings=FlumeSettings(), site=FlumeSite()):
        """A flume that holds a copy of this state, a State of buffers, if it is good; else refusal 1, 2, 4, 5 or 6."""
        lent.flume_check(sides, state)
        flume = cls(*sides, settings, site)
        copied(flume._first, state)
        # Once more, of what was copied: another thread may have changed what was looked at.
        flume.check()
        return flume

    @classmethod
    def read(cls, record):
        """The flume, settings and site of a flume's record, bytes. Refusals 10, 11, 1, 4, 3, 5, 6, by what stands first in the record."""
        record = bytes_of("record", record)
        try:
            cells = cells_of(FlumeSides(*(int.from_bytes(record[at : at + 4], "little") for at in (4, 8))))
        except Refused:
            # The library refuses before it looks at buffers.
            cells = 0
        first = state_of(cells)
        head = lent.flume_read(record, *first[1:])
        first.flags[:] = record[head.flags_from : head.flags_to]
        return cls._holding(head.sides, head.settings, head.site, first)

    def write(self):
        """The flume's record, bytes, which read takes back as the same flume. Refusal 3 for settings or a site out of range."""
        with self._lock:
            counts = self.counts()
            room = bytearray(76 + self.cells + 4 * counts.interface + 36 * counts.liquid)
            length = lent.flume_write(self._sides, self._settings, self._site, self._first, room)
            return bytes(room[:length])

    def copy(self):
        """Another flume with the same state, settings and site."""
        with self._lock:
            return self._holding(self._sides, self._settings, self._site, State(*(buffer[:] for buffer in self._first)))

    def check(self):
        """Whether the state is good: returns if so. What a flume is asked to do leaves it so."""
        with self._lock:
            lent.flume_check(self._sides, self._first)

    def step(self, turbulent=False):
        """Makes one step with the flume's settings. Refused, with 3, 7 or 8, it leaves the state as it was."""
        # A run of one step, after which the state stands where it stood: views of it stay true.
        try:
            self.run(1, turbulent)
        except Refused as refused:
            raise Refused(refused.number, refused.place) from None

    def run(self, steps, turbulent=False):
        """Makes so many steps, 0 to 1,000, faster than one by one, with the flume's settings and in one mode.

        Refusals 9 and 3 change nothing. Where a step is refused, with 7 or 8, the state is the one reached before it, and the refusal's count says
        how many steps that took.
        """
        with self._lock:
            lent.flume_run(self._sides, self._settings, steps, self._first, self._second, self._marks, turbulent)

    def mirrored(self, axis):
        """The flume mirrored in "x" or "z", gravity with it; mirrored once more it is this flume again.

        As long as no cell is filled or emptied, it does what this flume does, mirrored.
        """
        settings = self._settings.mirrored(axis)
        with self._lock:
            second = state_of(self.cells)
            lent.flume_mirror(self._sides, self._first, second, AXES[axis])
        return self._holding(self._sides, settings, self._site, second)

    def cell(self, x, z):
        """The number of cell (x, z), or refusal 13."""
        x, z = size.number("x", x), size.number("z", z)
        if x >= self._sides.nx or z >= self._sides.nz:
            raise Refused(Refused.OUTSIDE)
        return x + self._sides.nx * z

    def position(self, cell):
        """Where a cell lies, (x, z), or refusal 13."""
        return position(self._sides, self._within(cell))
