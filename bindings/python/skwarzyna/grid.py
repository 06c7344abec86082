"""A grid that owns its buffers, and the library's calls over them."""

from array import array
from itertools import product

from . import lent
from .holding import Holding, bytes_of, copied, position, walled
from .library import i64, size
from .refusal import Refused
from .values import AXES, INTERFACE, KINDS, PARTS, Depth, Held, Pool, Pools, Profile, Settings, Sides, Site

# No header of a depth map is longer, and no value with the blank or the line's end behind it.
MAP_HEADER, MAP_VALUE = 102, 7


def numbers(code, count):
    """So many numbers of an array's type, all 0."""
    return array(code, bytes(array(code).itemsize * count))


def held(cells):
    """Buffers of so many cells, all empty, with their index."""
    water = numbers("i", PARTS * cells), numbers("i", cells), numbers("I", cells), numbers("q", 3)
    return Held(bytearray(cells), *water, numbers("Q", -(-cells // 64)), numbers("Q", 1))


def cells_of(sides):
    """The number of cells of these sides, or refusal 1."""
    # The library tests the sides before it looks at the slices, of which none are lent.
    try:
        lent.check(sides, held(0).state)
    except Refused as refused:
        if refused.number == Refused.SIDES:
            raise
    return sides.nx * sides.ny * sides.nz


def room_for(sides):
    """Buffers for a grid of these sides, none where they are out of range: then the library refuses before it looks at buffers."""
    try:
        return held(cells_of(Sides(*sides)))
    except Refused:
        return held(0)


class Surface:
    """The interface cells of a grid in rising order, as the index had them when it was asked: what Grid.surface hands out.

    To the end it reads at most the words of the index and one more for each cell found; words_read says how many so far.
    """

    def __init__(self, sides, words, start):
        self._sides = sides
        self._words = words
        self._ahead = lent.surface_next(sides, words, start)
        self.words_read = 0

    def __iter__(self):
        return self

    def __next__(self):
        if self._ahead is None:
            raise StopIteration
        cell, words = self._ahead
        self.words_read += words
        if cell is None:
            self._ahead = None
            raise StopIteration
        self._ahead = lent.surface_next(self._sides, self._words, cell + 1)
        return cell


class Grid(Holding):
    """A box of cells with its water, its settings and its site.

        grid = Grid(12, 8, 10)                      a closed box of empty cells, walls around
        grid.set_fluid(grid.cell(1, 1, 1))          a cell of water; empty neighbours become interface
        grid.run(100)                               a hundred steps with grid.settings
        grid.run(100, turbulent=True)               a hundred in the turbulent mode
        grid.depth(1, 1)                            Depth(kind='deep', cells=0.99...)
        grid.water().balance                        to the unit what it was before

    Sides are 3 to 128 cells each, at most 262,144 cells in all (refusal 1). Water is counted in units, whole numbers, 589,824 (ONE) to a full cell.
    What is refused raises Refused and, unless said, changes nothing. Views of the state, as grid.fills, follow what is done to the grid.
    """

    # Those that share a face or an edge with a cell.
    _directions = tuple(way for way in product((-1, 0, 1), repeat=3) if sum(map(abs, way)) in (1, 2))
    _weights = (2,) * 6 + (1,) * 12
    _settings_type = Settings
    _site_type = Site

    def __init__(self, nx, ny, nz, settings=Settings(), site=Site()):
        sides = Sides(*(size.number(name, side) for name, side in zip(Sides._fields, (nx, ny, nz))))
        first = held(cells_of(sides))
        first.flags[:] = walled(sides, len(first.flags))
        super().__init__(sides, settings, site, first, held(len(first.flags)))

    @classmethod
    def _holding(cls, sides, settings, site, first):
        grid = cls.__new__(cls)
        Holding.__init__(grid, sides, settings, site, first, held(len(first.flags)))
        return grid

    @classmethod
    def of(cls, sides, state, settings=Settings(), site=Site()):
        """A grid that holds a copy of this state, a State of buffers, if it is good; else refusal 1, 2, 4, 5 or 6."""
        lent.check(sides, state)
        grid = cls(*sides, settings, site)
        copied(grid._first, state[:5])
        _make_index(grid._first)
        # Once more, of what was copied: another thread may have changed what was looked at.
        grid.check()
        return grid

    @classmethod
    def read(cls, record):
        """The grid, settings and site of a grid record, bytes. Refusals 10, 11, 1, 4, 3, 5, 6, by what stands first in the record."""
        record = bytes_of("record", record)
        first = room_for(int.from_bytes(record[at : at + 4], "little") for at in (4, 8, 12))
        head = lent.read(record, *first[1:])
        first.flags[:] = record[head.flags_from : head.flags_to]
        return cls._holding(head.sides, head.settings, head.site, first)

    @classmethod
    def from_invert(cls, text, nz, oz=0, settings=Settings()):
        """The dry grid of an invert, an ASCII height grid (text or bytes), nz cells high above a height of oz millimetres.

        Heights are whole millimetres above oz: a cell whose centre lies below its column's height is wall, and so is every cell of a column with
        -9999. The outer layer is wall in any case. Refusals 19 of a header line, 1, 3, then 20 of a row; the place is the line, from 1.
        """
        text = text.encode() if isinstance(text, str) else bytes_of("text", text)
        nz, oz = size.number("nz", nz), i64.number("oz", oz)
        first = room_for((*_sides_in(text), nz))
        sides, site = lent.invert_read(text, nz, oz, settings, first)
        return cls._holding(sides, settings, site, first)

    def write(self):
        """The grid's record, bytes, which read takes back as the same grid. Refusal 3 for settings or a site out of range."""
        with self._lock:
            counts = self.counts()
            room = bytearray(108 + self.cells + 4 * counts.interface + 76 * counts.liquid)
            length = lent.write(self._sides, self._settings, self._site, self._first, room)
            return bytes(room[:length])

    def depth_map(self):
        """The depth of every column in whole millimetres, rounded down, -9999 where it is all wall, as an ASCII height grid. Refusal 3."""
        with self._lock:
            room = bytearray(MAP_HEADER + MAP_VALUE * self._sides.nx * self._sides.ny)
            length = lent.depths_write(self._sides, self._site, self._first, room)
            return room[:length].decode("ascii")

    def copy(self):
        """Another grid with the same state, settings and site."""
        with self._lock:
            return self._holding(self._sides, self._settings, self._site, Held(*(buffer[:] for buffer in self._first)))

    def check(self):
        """Whether the state is good, and its index true: returns if so. What a grid is asked to do leaves it so."""
        with self._lock:
            lent.load(self._sides, self._first)

    def step(self, turbulent=False):
        """Makes one step with the grid's settings. Refused, with 3, 7 or 8, it leaves the state as it was."""
        # A run of one step, after which the state stands where it stood: views of it stay true.
        try:
            self.run(1, turbulent)
        except Refused as refused:
            raise Refused(refused.number, refused.place) from None

    def run(self, steps, turbulent=False):
        """Makes so many steps, 0 to 1,000, faster than one by one, with the grid's settings and in one mode.

        Refusals 9 and 3 change nothing. Where a step is refused, with 7 or 8, the state is the one reached before it, and the refusal's count says
        how many steps that took.
        """
        with self._lock:
            lent.run(self._sides, self._settings, steps, self._first, self._second, self._marks, turbulent)

    def pour(self, cell, amount):
        """A hose: pours an amount, 1 to 589,824 units, into an interface cell; what was moved, which is the amount. Refusals 13, 15, 16."""
        with self._lock:
            return lent.pour(self._sides, self._first, cell, amount)

    def take(self, cell, amount):
        """A pump: takes from an interface cell the smaller of an amount, 1 to 589,824 units, and its mass, nothing if that is not above 0.

        What was moved. Refusals 13, 15, 16.
        """
        with self._lock:
            return lent.take(self._sides, self._first, cell, amount)

    def mirrored(self, axis):
        """The grid mirrored in "x", "y" or "z", gravity with it; mirrored once more it is this grid again.

        As long as no cell is filled or emptied, it does what this grid does, mirrored.
        """
        settings = self._settings.mirrored(axis)
        with self._lock:
            second = held(self.cells)
            lent.mirror(self._sides, self._first, second, AXES[axis])
        return self._holding(self._sides, settings, self._site, second)

    def surface_count(self):
        """How many interface cells there are, by the index."""
        with self._lock:
            return lent.surface_count(self._sides, self._first.words)

    def surface(self, start=0):
        """The interface cells from this cell on, in rising order, one after the other. Refusal 13 for a start above the number of cells."""
        with self._lock:
            return Surface(self._sides, self._first.words[:], start)

    def cell(self, x, y, z):
        """The number of cell (x, y, z), or refusal 13."""
        x, y, z = (size.number(name, value) for name, value in (("x", x), ("y", y), ("z", z)))
        if x >= self._sides.nx or y >= self._sides.ny or z >= self._sides.nz:
            raise Refused(Refused.OUTSIDE)
        return x + self._sides.nx * (y + self._sides.ny * z)

    def position(self, cell):
        """Where a cell lies, (x, y, z), or refusal 13."""
        return position(self._sides, self._within(cell))

    def place(self, x, y, z):
        """The number of the cell that holds a survey point, in whole millimetres. Refusals 3, 13."""
        return lent.place(self._sides, self._site, (x, y, z))

    def point(self, cell):
        """A cell's centre in cells from the grid's corner, and its fill as a share of 1, as a CellPoint. Refusal 13."""
        with self._lock:
            return lent.point(self._sides, self._first.fills, cell)

    def depth(self, x, y):
        """The water in column (x, y), as a Depth: "solid", "dry", or "deep" and how many cells. Refusal 13."""
        with self._lock:
            return lent.depth(self._sides, self._first.flags, self._first.fills, x, y)

    def profile(self, stations):
        """The long profile along stations, 1 to 2,000 of (chainage, x, y, z) in whole millimetres, chainages rising, as a Profile.

        Refusals 22, 3 of the site, 23, 3 of a point.
        """
        chainages, points = array("q"), array("q")
        for chainage, *point in stations:
            chainages.append(i64.number("chainage", chainage))
            if len(point) != 3:
                raise ValueError("stations: chainage, x, y and z of each are wanted")
            points.extend(i64.number("point", coordinate) for coordinate in point)
        kinds, depths = bytearray(len(chainages)), numbers("f", len(chainages))
        with self._lock:
            deepest = lent.profile(self._sides, self._site, self._first.flags, self._first.fills, chainages, points, kinds, depths)
        return Profile(tuple(Depth(KINDS[kind], depth) for kind, depth in zip(kinds, depths)), deepest)

    def pools(self):
        """Which water hangs together, one pool or three: Pools, to be gone through one by one, each with its cells, its water and its lowest cell."""
        # There are never more, as is proved.
        most = (self._sides.nx - 1) * (self._sides.ny - 1) * (self._sides.nz - 1) // 4
        counts, waters = numbers("I", most), numbers("q", most)
        marks, work = numbers("H", self.cells), numbers("I", self.cells)
        with self._lock:
            lent.pools(self._sides, self._first, counts, waters, marks, work)
        pools = []
        for cell, mark in enumerate(marks):
            # Numbers rise with the lowest cells, so that each new one is the next.
            if mark > len(pools):
                pools.append(Pool(mark, counts[mark - 1], waters[mark - 1], cell))
        return Pools(pools, marks)

    def _flag(self, cell, flag):
        words, count, bit = self._first.words, self._first.count, 1 << cell % 64
        count[0] += (flag == INTERFACE) - (self._first.flags[cell] == INTERFACE)
        words[cell // 64] = words[cell // 64] | bit if flag == INTERFACE else words[cell // 64] & ~bit
        super()._flag(cell, flag)


def _make_index(held):
    """Makes the index of the flags."""
    only = held.flags.translate(bytes(int(flag == INTERFACE) for flag in range(256)))
    for k in range(len(held.words)):
        held.words[k] = sum(byte << bit for bit, byte in enumerate(only[64 * k : 64 * k + 64]))
    held.count[0] = only.count(1)


def _sides_in(text):
    """ncols and nrows of an invert whose first two lines the library takes: behind the keyword a whole number, perhaps with a point and zeros."""
    for line in (text.split(b"\n", 2) + [b""])[:2]:
        words = line.replace(b"\t", b" ").replace(b"\r", b" ").split(b" ")
        word = ([word for word in words if word] + [b"", b""])[1].split(b".")[0]
        yield int(word) if word.isdigit() and len(word) <= 12 else 0
