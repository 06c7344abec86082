"""Water in a grid of cells, stepped in whole numbers by the free-surface lattice Boltzmann method, and proved to add up to the unit.

    import skwarzyna

    grid = skwarzyna.Grid.from_invert(open("channel.asc").read(), nz=10, oz=118000)
    cell = grid.cell(18, 9, 3)                   x, y, z; the number of a cell
    grid.set_interface(cell)                     surface without water, that can be poured into
    grid.pour(cell, 500_000)                     units: 589,824 of them fill a cell
    grid.run(200)                                up to 1,000 steps; turbulent=True for the turbulent mode
    for pool in grid.pools():
        print(pool.number, pool.cells, pool.water)
    grid.water().balance                         0: nothing is made or lost, to the unit
    open("depths.asc", "w").write(grid.depth_map())

Grid        a box of cells with its water: read, write, step, run, pour, take, water, depth, profile, pools, mirrored, depth_map, from_invert
Flume       a long section in two dimensions, likewise
Refused     why a call was refused, in document 01's words; with number, place and, for a run, count
lent        every call of include/skwarzyna.h over buffers of your own, numpy arrays among them
values      what goes in and comes out, tuples with names, all to be had here too: Settings, Site, Water, Depth, Pool and so on

Cells are numbered, x + nx*(y + ny*z). Lengths are whole millimetres, water is whole units. Bad numbers are refused by the library, which accepts
every input and ends; values that it cannot be told at all are a TypeError or a ValueError.

The library behind this package is proved; the package and your own code are not. It is found by SKWARZYNA_LIBRARY, or beside this package;
bindings/object --shared makes it. Nothing is needed but Python's standard library.
"""

from . import lent, values
from .flume import Flume
from .grid import Grid, Surface
from .refusal import Refused
from .values import (
    EMPTY,
    FLUID,
    FULL,
    INTERFACE,
    ONE,
    WALL,
    CellPoint,
    Counts,
    Depth,
    FlumeSettings,
    FlumeSides,
    FlumeSite,
    Held,
    Point,
    Pool,
    Pools,
    Profile,
    Settings,
    Sides,
    Site,
    State,
    Water,
    litres,
)

# What help tells of here; the tuples are told of by help(skwarzyna.values).
__all__ = ["Grid", "Flume", "Refused", "lent", "values", "litres", "EMPTY", "INTERFACE", "FLUID", "WALL", "ONE", "FULL"]
