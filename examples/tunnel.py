"""A tunnel from its survey: two hoses wet the invert, a pump empties the sump, each pool is told with its water, and nothing is lost, to the unit.

    export SKWARZYNA_LIBRARY=$(bindings/object --shared) PYTHONPATH=bindings/python
    python3 examples/tunnel.py examples/channel.asc depths.asc
"""

import sys

from skwarzyna import EMPTY, INTERFACE, Grid, Settings, litres

HEIGHT = 118_000  # of the grid's floor, in millimetres
HOSES, PUMP = ((12, 9), (38, 9)), (42, 10)  # columns of cells, before a sill and in the sump
POURED, TAKEN = 50_000, 30_000  # units at a time; 589,824 fill a cell


def lowest(grid, column, flag):
    """The lowest cell of a column with this flag, None if there is none."""
    cells = (grid.cell(*column, z) for z in range(grid.sides.nz))
    return next((cell for cell in cells if grid.flags[cell] == flag), None)


def main(invert, depths):
    with open(invert, encoding="ascii") as file:
        grid = Grid.from_invert(file.read(), nz=10, oz=HEIGHT, settings=Settings(p=1400, gz=-1000))
    for hose in HOSES:
        grid.set_interface(lowest(grid, hose, EMPTY))  # what is dry has no surface to pour into
    print(f"{invert}: {grid}")
    print(f"{'step':>6} {'poured':>14} {'taken':>14} {'in the tunnel':>14} {'lost':>6} {'litres':>10}")
    for lot in range(1, 1001):
        for hose in HOSES:
            grid.pour(lowest(grid, hose, INTERFACE), POURED)
        pumped = lowest(grid, PUMP, INTERFACE)
        if pumped is not None and lot > 500:
            grid.take(pumped, TAKEN)
        grid.run(3, turbulent=True)
        if lot % 200 == 0:
            water = grid.water()
            print(f"{3 * lot:6} {water.poured:14,} {water.taken:14,} {water.total:14,} {water.balance:6} {litres(water.total, grid.site.edge):>10}")
    for pool in grid.pools():
        x, y, z = grid.position(pool.lowest)
        print(f"pool {pool.number} of {pool.cells} cells: {pool.water:,} units, {litres(pool.water, grid.site.edge)} litres, lowest at {x}, {y}, {z}")
    print(f"carry {grid.water().carry:,}")
    with open(depths, "w", encoding="ascii") as file:
        file.write(grid.depth_map())


if __name__ == "__main__":
    main(*sys.argv[1:])
