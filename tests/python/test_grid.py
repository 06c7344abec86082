"""Grid and Flume over buffers of their own: what they are asked, and what they refuse."""

import random
import threading
import unittest

from scenes import FLUME_STILL, FLUME_THREE, RECORD_T, STILL, THREE, TOP, case_u, flume_case_u
from skwarzyna import (
    EMPTY,
    FLUID,
    INTERFACE,
    ONE,
    WALL,
    Counts,
    Depth,
    Flume,
    FlumeSettings,
    FlumeSite,
    Grid,
    Pool,
    Refused,
    Settings,
    Sides,
    Site,
    State,
    Water,
    lent,
    litres,
)

CHANNEL = (TOP / "examples/channel.asc").read_bytes()


def block(kind=Grid):
    """A closed box, or section, with a block of water in a corner."""
    made = Grid(12, 8, 10) if kind is Grid else Flume(40, 12)
    for at in ((1, 1, 1), (2, 1, 1), (1, 2, 1), (1, 1, 2)) if kind is Grid else ((1, 1), (2, 1), (1, 2), (2, 2)):
        made.set_fluid(made.cell(*at))
    return made


class Refusing(unittest.TestCase):
    def refuses(self, number, place, call, *arguments, count=None, **named):
        with self.assertRaises(Refused) as caught:
            call(*arguments, **named)
        self.assertEqual((caught.exception.number, caught.exception.place, caught.exception.count), (number, place, count))


class Both(Refusing):
    """What a Grid and a Flume answer alike."""

    def test_steps_and_runs_keep_the_water(self):
        for kind in (Grid, Flume):
            one, other = block(kind), block(kind)
            before = one.water()
            self.assertEqual(before.fluid, 4 * ONE)
            for turbulent in (False, True):
                for _ in range(20):
                    one.step(turbulent)
                other.run(20, turbulent=turbulent)
                one.check()
                self.assertEqual(one, other)
                self.assertEqual(one.total(), before.total)
            self.assertNotEqual(one, block(kind))

    def test_the_mode_is_handed_on(self):
        box, section = case_u().state, flume_case_u()
        for one in (Grid.of(THREE, box, STILL), Flume.of(FLUME_THREE, section, FLUME_STILL)):
            plain, turbulent = one.copy(), one.copy()
            plain.step()
            turbulent.step(turbulent=True)
            first = one.cells // 2 * (19 if isinstance(one, Grid) else 9) + 1
            wanted = (31_779, 31_795) if isinstance(one, Grid) else (64_547, 64_563)
            self.assertEqual((plain.parts[first], turbulent.parts[first]), wanted)
            again = one.copy()
            again.run(1, turbulent=True)
            self.assertEqual(again, turbulent)

    def test_records_are_written_back(self):
        for kind in (Grid, Flume):
            one = block(kind)
            one.run(30)
            again = kind.read(one.write())
            self.assertEqual(again, one)
            again.run(10)
            one.run(10)
            self.assertEqual(again.write(), one.write())
            for record in (bytearray(one.write()), memoryview(one.write())):
                self.assertEqual(kind.read(record), one)
            for wrong in (None, 5, "text", [1, 2]):
                with self.assertRaises(TypeError):
                    kind.read(wrong)
            self.refuses(10, 0, kind.read, b"")
            self.refuses(11, 1, kind.read, block(Flume if kind is Grid else Grid).write())
            # Sides that nobody has room for are refused, not tried.
            self.refuses(1, 0, kind.read, one.write()[:4] + b"\xff" * 12 + one.write()[16:])

    def test_refused_steps_change_nothing(self):
        for kind in (Grid, Flume):
            one = block(kind)
            one.settings = one.settings._replace(p=2038)
            before = one.copy()
            self.refuses(3, 0, one.step)
            self.refuses(3, 0, one.run, 5, count=0)
            self.refuses(3, 0, one.write)
            self.assertEqual(one, before)
            one.settings = one.settings._replace(p=1600)
            self.refuses(9, 0, one.run, 1001, count=0)
            for steps, error in ((-1, ValueError), (1.0, TypeError), (2**64, ValueError), (None, TypeError), (True, TypeError)):
                with self.assertRaises(error):
                    one.run(steps)
            for turbulent in (0, 1, None, "yes"):
                with self.assertRaises(TypeError):
                    one.run(1, turbulent=turbulent)
                with self.assertRaises(TypeError):
                    one.step(turbulent)
            one.run(0)
            self.assertEqual(one.water(), before.water())

    def test_a_run_that_stops_tells_its_count(self):
        for kind in (Grid, Flume):
            # A drop with no neighbour falls ever faster, and ends the run by its speed.
            one = Grid(5, 5, 5) if kind is Grid else Flume(5, 5)
            one.set_interface(one.cell(*[2] * len(one.sides)), ONE // 2)
            one.settings = one.settings._replace(gz=-1000)
            with self.assertRaises(Refused) as caught:
                one.run(1000)
            stopped = caught.exception
            self.assertIn(stopped.number, (7, 8))
            self.assertGreater(stopped.count, 100)
            self.assertTrue(str(stopped).startswith(f"stopped after {stopped.count} steps by refusal"))
            other = kind.read(kind(*one.sides, one.settings).write())
            other.set_interface(one.cell(*[2] * len(one.sides)), ONE // 2)
            other.run(stopped.count)
            self.assertEqual(one, other)
            self.refuses(stopped.number, stopped.place, one.step)
            self.assertEqual(one, other)

    def test_sides_and_cells(self):
        for kind, good, bad in ((Grid, (3, 128, 4), (3, 3, 129)), (Flume, (512, 3), (513, 3))):
            kind(*good)
            self.refuses(1, 0, kind, *bad)
            self.refuses(1, 0, kind, *[2**64 - 1] * len(bad))
            for wrong, error in (([-1] * len(bad), ValueError), (["3"] * len(bad), TypeError), ([3.0] * len(bad), TypeError)):
                with self.assertRaises(error):
                    kind(*wrong)
            one = kind(*[5] * len(good))
            for cell in range(one.cells):
                self.assertEqual(one.cell(*one.position(cell)), cell)
            self.refuses(13, 0, one.cell, *[5] * len(good))
            self.refuses(13, 0, one.position, one.cells)
            with self.assertRaises(ValueError):
                one.cell(*[-1] * len(good))

    def test_laying_keeps_a_good_state(self):
        for kind in (Grid, Flume):
            one = kind(*[6] * (3 if kind is Grid else 2))
            chance = random.Random(7)
            for _ in range(300):
                cell = chance.randrange(one.cells)
                act = chance.choice(("wall", "empty", "fluid", "interface", "interface", "fluid"))
                try:
                    if act == "fluid":
                        one.set_fluid(cell, chance.choice((ONE, 294_912, 1_179_648, 600_001)))
                    elif act == "interface":
                        one.set_interface(cell, chance.randrange(-2_359_296, 2_359_297))
                    else:
                        getattr(one, f"set_{act}")(cell)
                except Refused as refused:
                    self.assertEqual((refused.number, refused.place), (4, cell))
                one.check()
            self.assertTrue(one.counts().fluid and one.counts().interface)
            inner = one.cell(*[2] * len(one.sides))
            for call in (one.set_wall, one.set_empty, one.set_fluid, one.set_interface):
                self.refuses(13, 0, call, one.cells)
                for cell, error in ((-1, ValueError), (1.5, TypeError), (None, TypeError)):
                    with self.assertRaises(error):
                        call(cell)
            before = one.copy()
            self.refuses(6, inner, one.set_fluid, inner, 294_911)
            self.refuses(6, inner, one.set_interface, inner, -2_359_297)
            with self.assertRaises(TypeError):
                one.set_fluid(inner, 1e6)
            self.refuses(4, 0, one.set_empty, 0)
            self.assertEqual(one, before)

    def test_views_follow_and_cannot_be_written(self):
        for kind in (Grid, Flume):
            one = block(kind)
            fills, carry = one.fills, one.carry
            before = list(fills)
            one.step()
            one.run(10)
            self.assertNotEqual(list(fills), before)
            self.assertEqual(list(fills), list(one.fills))
            for view in (one.flags, one.parts, one.masses, fills, carry):
                with self.assertRaises(TypeError):
                    view[0] = 0
            self.assertEqual(len(one.parts), (19 if kind is Grid else 9) * one.cells)
            with self.assertRaises(AttributeError):
                one.sides = one.sides

    def test_copies_of_a_state(self):
        for kind in (Grid, Flume):
            one = block(kind)
            one.run(10)
            state = State(one.flags, one.parts, one.masses, one.fills, one.carry)
            self.assertEqual(kind.of(one.sides, state, one.settings, one.site), one)
            flags = bytearray(one.flags)
            flags[0] = 0
            self.refuses(4, 0, kind.of, one.sides, state._replace(flags=flags))
            self.refuses(2, 0, kind.of, one.sides, state._replace(flags=flags[1:]))
            self.assertEqual(one.copy(), one)
            self.assertNotEqual(one, "one")
            with self.assertRaises(TypeError):
                hash(one)

    def test_settings_and_site_are_tuples(self):
        for kind in (Grid, Flume):
            one = block(kind)
            for wrong, error in ((5, TypeError), ((1, 2), ValueError), (None, TypeError)):
                with self.assertRaises(error):
                    one.settings = wrong
                with self.assertRaises(error):
                    one.site = wrong
            one.settings = one.settings._replace(p="1600")
            with self.assertRaises(TypeError):
                one.step()

    def test_mirrors(self):
        for kind, axes in ((Grid, "xyz"), (Flume, "xz")):
            one = block(kind)
            one.run(10)
            for axis in axes:
                other = one.mirrored(axis)
                self.assertEqual(other.mirrored(axis), one)
                self.assertEqual(getattr(other.settings, f"g{axis}"), -getattr(one.settings, f"g{axis}"))
                self.assertEqual((other.water(), other.counts()), (one.water(), one.counts()))
                other.check()
            for axis in (0, 1, "w", "", None, "p", "y" if kind is Flume else "u"):
                with self.assertRaises(ValueError):
                    one.mirrored(axis)

    def test_threads_wait_for_each_other(self):
        for kind in (Grid, Flume):
            one, other = block(kind), block(kind)
            cell = next(cell for cell, flag in enumerate(one.flags) if flag == INTERFACE)
            calls = [one.step, lambda: one.run(5), one.write, one.check, one.counts, one.water, one.copy, lambda: one.mirrored("x"), lambda: one == other]
            calls += [lambda: one.set_wall(cell), lambda: one.set_empty(cell), lambda: one.set_fluid(cell), lambda: one.set_interface(cell)]
            if kind is Grid:
                calls += [lambda: one.pour(cell, 1), lambda: one.take(cell, 1), one.depth_map, one.surface, one.surface_count, one.pools]
                calls += [lambda: one.point(cell), lambda: one.depth(1, 1), lambda: one.profile([(0, 0, 0, 0)])]
            for call in calls:
                ended = threading.Event()
                thread = threading.Thread(target=lambda call=call, ended=ended: (call(), ended.set()))
                with one._lock:
                    thread.start()
                    self.assertFalse(ended.wait(0.01))
                thread.join()
                self.assertTrue(ended.is_set())

    def test_runs_of_many_threads(self):
        for kind in (Grid, Flume):
            one, other = block(kind), block(kind)
            threads = [threading.Thread(target=one.run, args=(50,)) for _ in range(4)]
            for thread in threads:
                thread.start()
            for thread in threads:
                thread.join()
            other.run(200)
            self.assertEqual(one, other)


class OfTheGrid(Refusing):
    def test_case_t(self):
        grid = Grid.read(RECORD_T)
        self.assertEqual((grid.sides, grid.settings, grid.site), (THREE, (1024, 0, 0, -1024), (50, 0, 0, 0)))
        self.assertEqual(grid.counts(), Counts(0, 1, 0, 26))
        self.assertEqual(grid.water(), Water(0, 294_912, 0, 0, 0))
        self.assertEqual((len(grid.write()), len(RECORD_T)), (215, 199))
        self.assertEqual(grid.pour(13, 100_000), 100_000)
        self.assertEqual(grid.take(13, 589_824), 394_912)
        self.assertEqual(grid.water(), Water(0, 0, 0, 100_000, 394_912))
        self.assertEqual((grid.water().total, grid.water().balance), (0, 294_912))
        self.refuses(16, 0, grid.pour, 13, 0)
        self.refuses(16, 0, grid.take, 13, 589_825)
        self.refuses(15, 12, grid.take, 12, 1)
        self.refuses(13, 0, grid.pour, 27, 1)
        for cell, amount, error in ((13, 1.5, TypeError), (-1, 1, ValueError), (13, 2**63, ValueError), ("13", 1, TypeError)):
            for act in (grid.pour, grid.take):
                with self.assertRaises(error):
                    act(cell, amount)

    def test_the_surface(self):
        grid = block()
        wanted = [cell for cell, flag in enumerate(grid.flags) if flag == INTERFACE]
        self.assertEqual((grid.surface_count(), list(grid.surface())), (len(wanted), wanted))
        sweep = grid.surface(wanted[2])
        self.assertEqual(list(sweep), wanted[2:])
        self.assertLessEqual(sweep.words_read, 15 + len(wanted))
        self.assertEqual(next(sweep, None), None)
        self.assertEqual(list(grid.surface(grid.cells)), [])
        self.refuses(13, 0, grid.surface, grid.cells + 1)
        with self.assertRaises(ValueError):
            grid.surface(-1)
        # What runs on does not disturb a sweep.
        sweep = grid.surface()
        first = next(sweep)
        grid.run(300)
        self.assertEqual([first, *sweep], wanted)

    def test_readings(self):
        grid = block()
        grid.site = Site(50, -50, 5_200_000_000, 0)
        cell = grid.place(10, 5_200_000_060, 70)
        self.assertEqual(grid.position(cell), (1, 1, 1))
        self.assertEqual(grid.point(cell), (1.5, 1.5, 1.5, 1.0))
        self.assertEqual(grid.depth(1, 1), Depth("deep", 2.0))
        self.assertEqual((grid.depth(0, 0).kind, grid.depth(9, 5).kind), ("solid", "dry"))
        self.refuses(13, 0, grid.place, -51, 0, 0)
        self.refuses(3, 0, grid.place, 10**10 + 1, 0, 0)
        self.refuses(13, 0, grid.point, grid.cells)
        self.refuses(13, 0, grid.depth, 12, 0)
        with self.assertRaises(TypeError):
            grid.place(0.5, 0, 0)

    def test_the_profile(self):
        grid = block()
        profile = grid.profile([(0, 60, 60, 60), (1000, 60, 60, 60), (2000, -1, 0, 0), (3000, 0, 0, 0), (4000, 500, 200, 60)])
        deep = Depth("deep", 2.0)
        self.assertEqual(profile, ((deep, deep, Depth("outside", 0), Depth("solid", 0), Depth("dry", 0)), 0))
        self.assertIsNone(grid.profile([(0, -1, 0, 0)]).deepest)
        self.refuses(22, 0, grid.profile, [])
        self.refuses(22, 0, grid.profile, [(at, 0, 0, 0) for at in range(2001)])
        self.refuses(23, 1, grid.profile, [(0, 0, 0, 0), (0, 0, 0, 0)])
        self.refuses(3, 1, grid.profile, [(0, 0, 0, 0), (1, 10**11, 0, 0)])
        for wrong, error in (([(0, 0, 0)], ValueError), ([(0, 0, 0, 0.5)], TypeError), ([5], TypeError), ([(2**63, 0, 0, 0)], ValueError), (5, TypeError)):
            with self.assertRaises(error):
                grid.profile(wrong)

    def test_pools(self):
        grid = Grid(4, 4, 4)
        grid.set_interface(21, 1000)
        grid.set_interface(42, -7)
        pools = grid.pools()
        self.assertEqual(pools, (Pool(1, 1, 1000, 21), Pool(2, 1, -7, 42)))
        self.assertEqual((pools.water, pools.marks[42], pools.marks[0]), (993, 2, 0))
        grid.set_interface(22, 50)
        self.assertEqual(grid.pools(), (Pool(1, 3, 1043, 21),))
        self.assertEqual(Grid(3, 3, 3).pools(), ())

    def test_height_grids(self):
        for text in (CHANNEL, CHANNEL.decode(), bytearray(CHANNEL), CHANNEL.replace(b"\n", b"\r\n").replace(b"ncols ", b" NCOLS\t0")):
            grid = Grid.from_invert(text, 10, 118_000, Settings(1400, 0, 0, -1000))
            self.assertEqual((grid.sides, grid.site), (Sides(48, 20, 10), Site(50, 4_468_120_350, 5_332_604_200, 118_000)))
            self.assertEqual((grid.total(), grid.counts().liquid), (0, 0))
            grid.check()
        depths = grid.depth_map().splitlines()
        self.assertEqual(depths[:6], CHANNEL.decode().splitlines()[:6])
        self.assertEqual(Grid.from_invert(grid.depth_map(), 10).sides, grid.sides)
        self.refuses(19, 1, Grid.from_invert, "", 10)
        self.refuses(19, 1, Grid.from_invert, "ncols +48" + CHANNEL.decode()[8:], 10)
        self.refuses(1, 0, Grid.from_invert, CHANNEL, 2)
        self.refuses(1, 0, Grid.from_invert, CHANNEL.replace(b"48", b"999999999999"), 10)
        self.refuses(3, 0, Grid.from_invert, CHANNEL, 10, 10**11)
        self.refuses(20, 26, Grid.from_invert, CHANNEL[:-5], 10)
        for text, nz, error in ((5, 10, TypeError), (None, 10, TypeError), (CHANNEL, -1, ValueError), (CHANNEL, 10.0, TypeError)):
            with self.assertRaises(error):
                Grid.from_invert(text, nz)
        grid.site = grid.site._replace(edge=0)
        self.refuses(3, 0, grid.depth_map)

    def test_two_designers_over_one_scan(self):
        # A scheme's own flags go to its grid and back, and the grid is stepped as any other.
        mine = block()
        wall_map = bytearray(int(flag == WALL) for flag in mine.flags)
        own, joined = bytearray(mine.cells), bytearray(mine.cells)
        lent.scheme_part(mine.sides, mine.flags, own)
        scheme = State(own, mine.parts, mine.masses, mine.fills, mine.carry)
        lent.scheme_join(mine.sides, wall_map, scheme, joined)
        self.assertEqual(joined, mine.flags)
        dry = Grid(*mine.sides)
        other = State(bytearray(mine.cells), dry.parts, dry.masses, dry.fills, dry.carry)
        lent.wall_add(mine.sides, wall_map, scheme, other, mine.cell(9, 5, 5))
        self.refuses(18, mine.cell(1, 1, 1), lent.wall_add, mine.sides, wall_map, other, scheme, mine.cell(1, 1, 1))

    def test_litres_are_spelled(self):
        for units, edge, text in ((ONE, 100, "1.000"), (-ONE // 2, 1000, "-500.000"), (1, 50, "0.000"), (295, 100, "0.001"), (294, 100, "0.000")):
            self.assertEqual(litres(units, edge), text)
        self.assertEqual(litres(1234 * ONE, 1000), "1,234,000.000")

    def test_it_says_what_it_is(self):
        self.assertEqual(repr(Grid(3, 3, 3)), "<Grid of 3 x 3 x 3 cells: 0 fluid, 0 interface, 0 units of water>")
        self.assertEqual(Grid(3, 3, 3).flags[13], EMPTY)
        self.assertEqual(block().flags[block().cell(1, 1, 1)], FLUID)


class OfTheFlume(Refusing):
    def test_what_it_holds(self):
        flume = Flume(5, 4, FlumeSettings(1700, 0, -40), FlumeSite(20, 1, 2))
        self.assertEqual(flume.counts(), Counts(6, 0, 0, 14))
        flume.set_fluid(flume.cell(2, 1), ONE)
        self.assertEqual((flume.counts(), flume.water()), (Counts(0, 5, 1, 14), Water(ONE, 0, 0)))
        again = Flume.read(flume.write())
        self.assertEqual((again.settings, again.site, again), (flume.settings, flume.site, flume))
        self.assertEqual(flume.water().balance, ONE)
        self.assertEqual(len(flume.carry), 1)


if __name__ == "__main__":
    unittest.main()
