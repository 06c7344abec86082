"""The worked figures of document 01 and docs/AMENDMENTS.md through the calls over lent buffers, in both modes."""

import unittest
from array import array

from scenes import (
    FALLING,
    FLUME_FALLING,
    FLUME_MIDDLE,
    FLUME_REST,
    FLUME_STILL,
    FLUME_THREE,
    MASS,
    MIDDLE,
    RECORD_T,
    REST,
    STILL,
    THREE,
    blank,
    by_array,
    by_ctypes,
    case_f,
    case_t,
    case_u,
    flume_blank,
    flume_case_u,
    lay,
    parts_of,
    told,
)
from skwarzyna import FLUID, CellPoint, Depth, Refused, Settings, Site, State, lent

MODES = (False, True)
SITE = Site(50, 0, 0, 0)
FALLEN = [196_603, 32_768, 32_768, 32_768, 32_768, 32_673, 32_864, 16_384, 16_384, 16_384, 16_384]
FALLEN += [16_337, 16_432, 16_432, 16_337, 16_337, 16_432, 16_432, 16_337]


class Figures(unittest.TestCase):
    def refuses(self, number, place, call, *arguments, count=None):
        with self.assertRaises(Refused) as caught:
            call(*arguments)
        self.assertEqual((caught.exception.number, caught.exception.place, caught.exception.count), (number, place, count))

    def stepped(self, sides, settings, first, second, marks, turbulent, step=lent.step, run=lent.run):
        """One step by step, and by a run of one: the same. The next state."""
        before = told(first)
        step(sides, settings, first, second, marks, turbulent=turbulent)
        self.assertEqual(told(first), before)
        self.assertFalse(any(marks))
        after = told(second)
        run(sides, settings, 1, first, second, marks, turbulent=turbulent)
        self.assertEqual(told(first), after)
        self.assertEqual(told(second), after)
        return second

    def test_case_t(self):
        for make in (by_array, by_ctypes):
            for turbulent in MODES:
                second = self.stepped(THREE, FALLING, case_t(make), blank(THREE, make), make("B", 27), turbulent)
                self.assertEqual(parts_of(second, MIDDLE), FALLEN)
                self.assertEqual((second.masses[MIDDLE], second.fills[MIDDLE], list(second.carry)), (MASS, 32_768, [0, 0, 0]))
                self.assertEqual((list(second.words), list(second.count)), ([8192], [1]))

    def test_case_u(self):
        for make in (by_array, by_ctypes):
            for turbulent, along, up in ((False, 31_779, 33_757), (True, 31_795, 33_741)):
                wanted = list(REST)
                wanted[1] = wanted[2] = along
                wanted[5] = wanted[6] = up
                second = self.stepped(THREE, STILL, case_u(make), blank(THREE, make), make("B", 27), turbulent)
                self.assertEqual(parts_of(second, MIDDLE), wanted)

    def test_case_f(self):
        wanted = [262_141, 65_536, 65_536, 65_345, 65_728, 16_337, 16_432, 16_432, 16_337]
        for make in (by_array, by_ctypes):
            for turbulent in MODES:
                sets = case_f(make), flume_blank(FLUME_THREE, make)
                second = self.stepped(FLUME_THREE, FLUME_FALLING, *sets, make("B", 9), turbulent, lent.flume_step, lent.flume_run)
                self.assertEqual(parts_of(second, FLUME_MIDDLE, 9), wanted)
                self.assertEqual((second.masses[FLUME_MIDDLE], second.fills[FLUME_MIDDLE], list(second.carry)), (MASS, 32_768, [0]))

    def test_case_u_of_the_flume(self):
        for turbulent, along, up in ((False, 64_547, 66_525), (True, 64_563, 66_509)):
            wanted = list(FLUME_REST)
            wanted[1] = wanted[2] = along
            wanted[3] = wanted[4] = up
            sets = flume_case_u(), flume_blank(FLUME_THREE)
            second = self.stepped(FLUME_THREE, FLUME_STILL, *sets, bytearray(9), turbulent, lent.flume_step, lent.flume_run)
            self.assertEqual(parts_of(second, FLUME_MIDDLE, 9), wanted)

    def test_steps_and_runs_are_refused(self):
        for turbulent in MODES:
            first, second, marks = case_t(), blank(THREE), bytearray(b"\1" * 27)
            before = told(second)
            for sides, settings, number in (
                ((3, 3, 2), FALLING, 1),
                (THREE, FALLING._replace(p=0), 3),
                (THREE, FALLING._replace(p=2038), 3),
                (THREE, FALLING._replace(gx=1049), 3),
            ):
                self.refuses(number, 0, lent.step, sides, settings, first, second, marks, turbulent)
                self.refuses(number, 0, lent.run, sides, settings, 1, first, second, marks, turbulent, count=0)
            self.refuses(9, 0, lent.run, THREE, FALLING, 1001, first, second, marks, turbulent, count=0)
            first.words[0] = 0
            self.refuses(14, 0, lent.step, THREE, FALLING, first, second, marks, turbulent)
            self.assertEqual((told(second), list(marks)), (before, [1] * 27))

    def test_a_refused_flow_leaves_the_state_reached(self):
        # P10's figure: passes 7 and is refused with 8 by speed; a run stops before it.
        for turbulent in MODES:
            first, second, marks = case_t(), blank(THREE), bytearray(b"\1" * 27)
            density, jx = 589_824, -196_018
            weights = (2,) * 6 + (1,) * 12
            along = (1, -1, 0, 0, 0, 0, 1, -1, 1, -1, 0, 0, 0, 0, 1, -1, 1, -1)
            moving = [
                w * (2 * density**2 + 6 * density * e * jx + 9 * (e * jx) ** 2 - 3 * jx**2) // (72 * density) for w, e in zip(weights, along)
            ]
            lay(first, MIDDLE, parts=[density - sum(moving)] + moving)
            first.count[0] = 1
            settings = Settings(1500, 1048, 0, 0)
            before = told(first)
            self.refuses(8, MIDDLE, lent.step, THREE, settings, first, second, marks, turbulent)
            self.assertEqual((told(second), list(marks)), (before, [0] * 27))
            self.refuses(8, MIDDLE, lent.run, THREE, settings, 5, first, second, marks, turbulent, count=0)
            self.assertEqual((told(first), told(second)), (before, before))

    def test_check_and_load(self):
        held = case_t()
        lent.check(THREE, held)
        lent.check(THREE, held.state)
        lent.check(list(THREE), list(held.state))
        lent.load(THREE, held)
        held.count[0] = 3
        self.refuses(14, 0, lent.load, THREE, held)
        held.fills[MIDDLE] += 1
        self.refuses(6, MIDDLE, lent.check, THREE, held)
        held.flags[12] = 0
        self.refuses(4, 12, lent.load, THREE, held)
        held = case_t()
        held.carry[1] = -1
        self.refuses(6, 27, lent.check, THREE, held)
        lent.flume_check(FLUME_THREE, case_f())
        self.refuses(1, 0, lent.flume_check, (513, 3), case_f())
        self.refuses(2, 0, lent.flume_check, (512, 512), case_f())

    def test_groups_are_tuples_of_as_many(self):
        for sides, error in (((3, 3), ValueError), (3, TypeError), (None, TypeError), ("abc", TypeError), ((3, 3, "3"), TypeError)):
            with self.assertRaises(error):
                lent.check(sides, case_t())
        for state in (case_t()[:4], 5, None):
            with self.assertRaises((TypeError, ValueError)):
                lent.check(THREE, state)
        with self.assertRaises(ValueError):
            lent.load(THREE, case_t().state)

    def test_the_surface(self):
        sides = (5, 5, 5)
        held = lay(lay(blank(sides), 31), 93)
        self.assertEqual(list(held.words), [2_147_483_648, 536_870_912])
        lent.load(sides, held)
        self.assertEqual(lent.surface_count(sides, held.words), 2)
        for start, answer in ((0, (31, 1)), (32, (93, 2)), (64, (93, 1)), (94, (None, 1)), (125, (None, 0))):
            self.assertEqual(lent.surface_next(sides, held.words, start), answer)
        self.refuses(13, 0, lent.surface_next, sides, held.words, 126)
        held.words[1] |= 1 << 61
        self.refuses(14, 0, lent.load, sides, held)
        self.assertEqual(lent.surface_count(sides, held.words), 2)
        self.refuses(1, 0, lent.surface_count, (5, 5, 2), held.words)
        self.refuses(2, 0, lent.surface_count, (6, 6, 6), held.words)

    def test_pumps_and_hoses(self):
        held = case_t()
        for act, amount, cell, answer, mass, fill, poured, taken in (
            (lent.pour, 100_000, 13, 100_000, 394_912, 43_879, 100_000, 0),
            (lent.take, 589_824, 13, 394_912, 0, 0, 100_000, 394_912),
            (lent.take, 5, 13, 0, 0, 0, 100_000, 394_912),
            (lent.pour, 589_825, 13, (16, 0), 0, 0, 100_000, 394_912),
            (lent.pour, 1, 12, (15, 12), 0, 0, 100_000, 394_912),
            (lent.pour, 1, 27, (13, 0), 0, 0, 100_000, 394_912),
            (lent.pour, 589_824, 13, 589_824, 589_824, 65_536, 689_824, 394_912),
            (lent.pour, 589_824, 13, 589_824, 1_179_648, 65_536, 1_279_648, 394_912),
            (lent.pour, 589_824, 13, 589_824, 1_769_472, 65_536, 1_869_472, 394_912),
            (lent.pour, 589_824, 13, 589_824, 2_359_296, 65_536, 2_459_296, 394_912),
            (lent.pour, 1, 13, (16, 0), 2_359_296, 65_536, 2_459_296, 394_912),
        ):
            if isinstance(answer, tuple):
                self.refuses(*answer, act, THREE, held, cell, amount)
            else:
                self.assertEqual(act(THREE, held.state, cell, amount), answer)
            self.assertEqual((held.masses[13], held.fills[13], list(held.carry)), (mass, fill, [0, poured, taken]))
            self.assertEqual(mass + taken - poured, 294_912)
            lent.load(THREE, held)

    def test_records(self):
        read = blank(THREE)
        head = lent.read(RECORD_T, *read[1:])
        self.assertEqual(head, (THREE, FALLING, SITE, 84, 111))
        read.flags[:] = RECORD_T[head.flags_from : head.flags_to]
        self.assertEqual(told(read), told(case_t()))
        room = bytearray(b"\7" * 220)
        self.assertEqual(lent.write(THREE, FALLING, SITE, read, room), 215)
        self.assertEqual(room[215:], b"\7" * 5)
        written = bytes(room[:215])
        self.assertEqual(written, RECORD_T[:68] + b"\3\0\0\0" + bytes(24) + RECORD_T[80:])
        again = blank(THREE)
        self.assertEqual(lent.read(written, *again[1:])[3:], (100, 127))
        self.refuses(12, 215, lent.write, THREE, FALLING, SITE, read, bytearray(214))
        self.refuses(3, 0, lent.write, THREE, FALLING, SITE._replace(edge=0), read, room)
        for cut, place in ((3, 0), (87, 68), (99, 96), (214, 135)):
            self.refuses(10, place, lent.read, written[:cut], *again[1:])
        self.refuses(10, 215, lent.read, written + b"\0", *again[1:])
        self.refuses(11, 1, lent.read, b"\2" + written[1:], *again[1:])

    def test_records_of_the_flume(self):
        site = (50, 0, 0)
        room = bytearray(130)
        self.assertEqual(lent.flume_write(FLUME_THREE, FLUME_FALLING, site, case_f(), room), 125)
        self.refuses(12, 125, lent.flume_write, FLUME_THREE, FLUME_FALLING, site, case_f(), bytearray(124))
        self.refuses(3, 0, lent.flume_write, FLUME_THREE, FLUME_FALLING._replace(gx=35, gz=-1048), site, case_f(), room)
        record, read = bytes(room[:125]), flume_blank(FLUME_THREE)
        self.assertEqual(lent.flume_read(record, *read[1:]), (FLUME_THREE, FLUME_FALLING, site, 68, 77))
        read.flags[:] = record[68:77]
        self.assertEqual(told(read), told(case_f()))
        counts = (0, 12, 32, 52, 64, 77, 85)
        for cut in range(125):
            self.refuses(10, max(count for count in counts if count <= cut), lent.flume_read, record[:cut], *read[1:])
        self.refuses(10, 125, lent.flume_read, record + b"\0", *read[1:])
        self.refuses(11, 1, lent.flume_read, RECORD_T, *read[1:])
        self.refuses(11, 1, lent.read, record, *blank(THREE)[1:])

    def test_place_and_point(self):
        site = Site(50, -50, 5_200_000_000, 0)
        self.assertEqual(lent.place((5, 4, 4), site, (60, 5_200_000_099, 199)), 2 + 5 * (1 + 4 * 3))
        self.refuses(13, 0, lent.place, (5, 4, 4), site, (60, 5_200_000_099, 200))
        self.refuses(3, 0, lent.place, (5, 4, 4), site, (10_000_000_001, 0, 0))
        self.refuses(1, 0, lent.place, (5, 4, 129), site, (0, 0, 0))
        with self.assertRaises(ValueError):
            lent.place((5, 4, 4), site, (60, 70))
        self.assertEqual(lent.point(THREE, case_t().fills, MIDDLE), CellPoint(1.5, 1.5, 1.5, 0.5))
        self.refuses(13, 0, lent.point, THREE, case_t().fills, 27)

    def gutter(self):
        """The grid of the profile's and the depth map's figures."""
        sides = (5, 4, 4)
        held = blank(sides)
        for x, y, mass in ((1, 1, 294_912), (2, 1, 589_824), (3, 1, 1), (2, 2, 442_368)):
            lay(held, x + 5 * (y + 4), mass)
        for z in (1, 2):
            held.flags[1 + 5 * (2 + 4 * z)] = 3
        return sides, Site(50, -50, 5_200_000_000, 0), held

    def test_depth_and_profile(self):
        sides, site, held = self.gutter()
        kinds = {(1, 1): ("deep", 0.5), (2, 1): ("deep", 1.0), (3, 1): ("dry", 0.0), (1, 2): ("solid", 0.0), (3, 2): ("dry", 0.0), (0, 0): ("solid", 0.0)}
        for (x, y), answer in kinds.items():
            self.assertEqual(lent.depth(sides, held.flags, held.fills, x, y), Depth(*answer))
        self.refuses(13, 0, lent.depth, sides, held.flags, held.fills, 5, 0)
        chainages = array("q", range(0, 7000, 1000))
        points = [(25, 75, 60), (50, 50, 0), (60, 99, 199), (60, 99, 200), (0, 100, 0), (125, 125, 0), (75, 120, 10)]
        places = array("q", [n + (5_200_000_000 if axis == 1 else 0) for point in points for axis, n in enumerate(point)])
        lines, depths = bytearray(7), array("f", bytes(28))
        lists = sides, site, held.flags, held.fills, chainages, places, lines, depths
        self.assertEqual(lent.profile(*lists), 1)
        self.assertEqual((list(lines), list(depths)), ([3, 3, 3, 4, 1, 2, 3], [0.5, 1, 1, 0, 0, 0, 0.75]))
        places[3] = 10_000_000_001
        self.refuses(3, 1, lent.profile, *lists)
        chainages[3] = chainages[2]
        self.refuses(23, 3, lent.profile, *lists)
        self.refuses(3, 0, lent.profile, sides, site._replace(edge=0), *lists[2:])
        self.refuses(2, 0, lent.profile, *lists[:6], bytearray(6), depths)
        none = array("q")
        self.refuses(22, 0, lent.profile, *lists[:4], none, none, bytearray(), array("f"))
        self.assertEqual((list(lines), list(depths)), ([3, 3, 3, 4, 1, 2, 3], [0.5, 1, 1, 0, 0, 0, 0.75]))
        dry = blank(sides)
        one = array("q", [25, 5_200_000_075, 60])
        self.assertIsNone(lent.profile(sides, site, dry.flags, dry.fills, array("q", [-5]), one, bytearray(1), array("f", [1])))

    HEADER = "ncols 5\nnrows 4\nxllcorner -0.050\nyllcorner 5200000.000\ncellsize 0.050\nNODATA_value -9999\n"

    def test_the_depth_map(self):
        sides, site, held = self.gutter()
        rows = "-9999 -9999 -9999 -9999 -9999\n-9999 -9999 37 0 -9999\n-9999 25 50 0 -9999\n-9999 -9999 -9999 -9999 -9999\n"
        room = bytearray(200)
        self.assertEqual(lent.depths_write(sides, site, held, room), 192)
        self.assertEqual(room[:192].decode(), self.HEADER + rows)
        self.refuses(12, 192, lent.depths_write, sides, site, held, bytearray(191))
        self.refuses(3, 0, lent.depths_write, sides, site._replace(edge=1001), held, room)

    def test_the_invert(self):
        text = (self.HEADER + "0 0 0 0 0\n0 75 76 125 0\n0 126 -9999 -40 0\n0 0 0 0 0\n").encode()
        held = lay(blank((5, 4, 4)), 26)
        sides, site = lent.invert_read(text, 4, 7, FALLING, held)
        self.assertEqual((sides, site), ((5, 4, 4), (50, -50, 5_200_000_000, 7)))
        self.assertEqual([cell for cell, flag in enumerate(held.flags) if flag != 3], [28, 31, 48, 51, 52, 53])
        self.assertFalse(any(any(buffer) for buffer in held[1:]))
        lent.load(sides, held)
        before = told(held)
        for old, new, number, place in (
            (b"ncols 5", b"ncols five", 19, 1),
            (b"ncols 5", b"ncols 2", 1, 0),
            (b"ncols 5", b"ncols -5", 1, 0),
            (b"-0.050", b"-0.0505", 19, 3),
            (b"cellsize 0.050", b"cellsize 1.001", 3, 0),
            (b"value -9999", b"value -1", 19, 6),
            (b"75 76", b"76", 20, 8),
            (b"76", b"76.5", 20, 8),
        ):
            self.refuses(number, place, lent.invert_read, text.replace(old, new, 1), 4, 7, FALLING, held)
        self.refuses(20, 11, lent.invert_read, text + b"x", 4, 7, FALLING, held)
        self.refuses(2, 0, lent.invert_read, text, 5, 7, FALLING, held)
        self.refuses(3, 0, lent.invert_read, text, 4, 10_000_000_001, FALLING, held)
        self.assertEqual(told(held), before)

    def test_pools(self):
        sides = (4, 4, 4)
        held = lay(lay(blank(sides), 21, 1000), 42, -7)
        counts, waters, marks, work = array("I", [9] * 3), array("q", [9] * 3), array("H", [9] * 64), array("I", [9] * 64)
        self.assertEqual(lent.pools(sides, held, counts, waters, marks, work), 2)
        self.assertEqual((list(counts), list(waters)), ([1, 1, 9], [1000, -7, 9]))
        self.assertEqual({cell: mark for cell, mark in enumerate(marks) if mark}, {21: 1, 42: 2})
        self.assertFalse(any(work))
        marks[0] = 5
        self.refuses(21, 2, lent.pools, sides, held, array("I", [9]), array("q", [9]), marks, work)
        self.assertFalse(any(marks))
        self.refuses(2, 0, lent.pools, sides, held, array("I", [9]), array("q", [9, 9]), marks, work)
        lay(held, 22, 50)
        self.assertEqual(lent.pools(sides, held, counts, waters, marks, work), 1)
        self.assertEqual((counts[0], waters[0]), (3, 1043))

    def test_the_mirror(self):
        sides, parts = (5, 4, 3), [part + k for k, part in enumerate(REST)]
        first = lay(blank(sides), 26, 100_000, parts)
        first.carry[:] = array("q", [7, 100_000, 3])
        wanted = {
            0: (28, 268_435_456, {1: 32_770, 2: 32_769, 3: 32_771, 5: 32_773, 7: 16_394, 11: 16_395, 15: 16_402}),
            1: (31, 2_147_483_648, {1: 32_769, 2: 32_770, 3: 32_772, 5: 32_773, 7: 16_393, 11: 16_398, 15: 16_399}),
            2: (26, 67_108_864, {1: 32_769, 2: 32_770, 3: 32_771, 5: 32_774, 7: 16_391, 11: 16_397, 15: 16_401}),
        }
        for axis, (cell, word, few) in wanted.items():
            second = blank(sides)
            lent.mirror(sides, first, second, axis)
            self.assertEqual((second.words[0], second.masses[cell], second.fills[cell], list(second.carry)), (word, 100_000, 11_107, [7, 100_000, 3]))
            for k, part in few.items():
                self.assertEqual(second.parts[19 * cell + k], part)
            lent.load(sides, second)
        before = told(second)
        self.refuses(3, 0, lent.mirror, sides, first, second, 3)
        self.refuses(2, 0, lent.mirror, sides, first, second._replace(flags=bytearray(59)), 3)
        first.carry[1] = -1
        self.refuses(6, 60, lent.mirror, sides, first, second, 2)
        self.assertEqual(told(second), before)

    def test_the_flumes_mirror(self):
        sides, parts = (5, 4), [part + k for k, part in enumerate(FLUME_REST)]
        first = lay(flume_blank(sides), 6, 100_000, parts)
        first.carry[0] = 7
        for axis, cell, few in (
            (0, 8, [65_538, 65_537, 65_539, 65_540, 16_392, 16_391, 16_390, 16_389]),
            (2, 11, [65_537, 65_538, 65_540, 65_539, 16_391, 16_392, 16_389, 16_390]),
        ):
            second = flume_blank(sides)
            lent.flume_mirror(sides, first, second, axis)
            self.assertEqual((parts_of(second, cell, 9)[1:], second.masses[cell], second.fills[cell], second.carry[0]), (few, 100_000, 11_110, 7))
        for axis in (1, 3):
            self.refuses(3, 0, lent.flume_mirror, sides, first, second, axis)
        first.carry[0] = 10**12 + 1
        self.refuses(6, 20, lent.flume_mirror, sides, first, second, 2)

    def schemes(self):
        """5 x 3 x 3, wall in all outer cells and in 22; one has interface at 21, the other fluid at 23, a third is dry."""
        sides = (5, 3, 3)
        wall_map = bytearray(int(flag == 3) for flag in blank(sides).flags)
        wall_map[22] = 1
        none = [State(bytearray(45), *blank(sides)[1:5]) for _ in range(3)]
        lay(none[0], 21)
        lay(none[1], 23, 589_824, flag=FLUID)
        return sides, wall_map, none

    def test_two_designers(self):
        sides, wall_map, (mine, theirs, dry) = self.schemes()
        for ask, cell, beside, alone in (
            (lent.wall_add, 21, (18, 21), (18, 21)),
            (lent.wall_add, 23, (18, 23), None),
            (lent.wall_remove, 22, (18, 22), None),
            (lent.wall_add, 22, (17, 22), (17, 22)),
            (lent.wall_remove, 0, (17, 0), (17, 0)),
            (lent.wall_remove, 23, (17, 23), (17, 23)),
            (lent.wall_add, 45, (13, 0), (13, 0)),
        ):
            for other, answer in ((theirs, beside), (dry, alone)):
                changed = bytearray(wall_map)
                if answer:
                    self.refuses(*answer, ask, sides, changed, mine, other, cell)
                    self.assertEqual(changed, wall_map)
                else:
                    ask(sides, changed, mine, other, cell)
                    self.assertEqual(changed[cell], int(ask is lent.wall_add))
                    changed[cell] = wall_map[cell]
                    self.assertEqual(changed, wall_map)

    def test_join_and_part(self):
        sides, wall_map, (mine, _, _) = self.schemes()
        grid, own = bytearray(45), bytearray(45)
        lent.scheme_join(sides, wall_map, mine, grid)
        self.assertEqual(grid, bytes(3 if wall else flag for wall, flag in zip(wall_map, mine.flags)))
        lent.check(sides, mine._replace(flags=grid))
        lent.scheme_part(sides, grid, own)
        self.assertEqual(own, mine.flags)
        for flag, number in ((3, 4), (1, 6)):
            mine.flags[0] = flag
            self.refuses(number, 0, lent.scheme_join, sides, wall_map, mine, grid)
        grid[7] = 9
        self.refuses(4, 7, lent.scheme_part, sides, grid, own)


if __name__ == "__main__":
    unittest.main()
