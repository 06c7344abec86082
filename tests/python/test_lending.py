"""That nothing bad reaches the library: each argument of each call, handed over in every wrong way."""

import ctypes
import unittest
from array import array
from functools import wraps

from scenes import RECORD_T, THREE, by_array, by_ctypes, case_f, case_t, flume_blank, flume_case_u
from skwarzyna import Refused
from skwarzyna.library import CALLS, Answer, Mode, Number, Read, u8

CODES = {"unsigned bytes": "B", "unsigned 16-bit numbers": "H", "unsigned 32-bit numbers": "I", "unsigned 64-bit numbers": "Q"}
CODES.update({"signed 32-bit numbers": "i", "signed 64-bit numbers": "q", "32-bit floats": "f"})
TEXT = b"ncols 3\nnrows 3\nxllcorner 0.000\nyllcorner 0.000\ncellsize 0.050\nNODATA_value -9999\n0 0 0\n0 0 0\n0 0 0\n"
NUMBERS = {"nx": 3, "ny": 3, "nz": 3, "p": 1024, "gx": 0, "gy": 0, "gz": -100, "edge": 50, "ox": 0, "oy": 0, "oz": 0, "steps": 2}
NUMBERS.update({"cell": 13, "amount": 5, "start": 0, "axis": 0, "x": 1, "y": 1, "z": 1})


def empty_scheme(make):
    """Water nowhere, and no wall in the flags."""
    scheme = case_t(make)
    for buffer in scheme:
        for k in range(len(buffer)):
            buffer[k] = 0
    return scheme


def good(call, make):
    """Arguments that a call accepts, by name; each call has buffers of its own."""
    flume, scheme = "flume" in call.name, call.name in ("skw_scheme_join", "skw_wall_add", "skw_wall_remove")
    first, second = (case_f(make), flume_case_u(make)) if flume else (case_t(make), case_t(make))
    if scheme:
        first, second = empty_scheme(make), empty_scheme(make)
    cells = len(first.flags)
    given = dict(NUMBERS)
    given.update(zip(first._fields, first))
    given.update(zip((name + "2" for name in second._fields), second))
    given.update(marks=make("H" if call.name == "skw_pools" else "B", cells), work=make("I", cells), counts=make("I", 2), waters=make("q", 2))
    given.update(room=make("B", 400), kinds=make("B", 1), depths=make("f", 1), chainages=make("q", 1), points=make("q", 3), turbulent=False)
    grid, wall_map = make("B", cells), make("B", cells)
    for cell in range(cells):
        grid[cell], wall_map[cell] = 1 if cell == 13 else 3, int(cell != 13)
    if call.name == "skw_wall_remove":
        # Its one inner cell is wall.
        wall_map[13] = 1
    given.update(grid=grid, map=wall_map, text=bytearray(TEXT), rec=bytearray(RECORD_T))
    if call.name == "skw_flume_read":
        room = bytearray(125)
        CALLS["skw_flume_write"](3, 3, 1024, 0, -1024, 50, 0, 0, *case_f(), room)
        given["rec"] = room
    return given


def made(call, given):
    return call(*(given[argument.name] for argument in call.arguments if not isinstance(argument, Answer)))


def whole(given):
    """All bytes lent, to see that nothing is written."""
    return {name: bytes(memoryview(value)) for name, value in given.items() if not isinstance(value, (int, bool))}


def each(wanted):
    """Looks at each argument of a kind of each call."""

    def over(test):
        @wraps(test)
        def tested(self):
            for call in CALLS.values():
                for argument in call.arguments:
                    if isinstance(argument, wanted):
                        with self.subTest(f"{call.name} {argument.name}"):
                            test(self, call, argument)

        return tested

    return over


class Lending(unittest.TestCase):
    def refused(self, call, name, value, error, text):
        """A bad value is told by its name, and nothing is written."""
        given = good(call, by_array)
        before = whole(given)
        given[name] = value
        with self.assertRaisesRegex(error, f"{name}.*{text}") as caught:
            made(call, given)
        self.assertNotIsInstance(caught.exception, Refused)
        given[name] = good(call, by_array)[name]
        self.assertEqual(whole(given), before)

    def test_good_values_are_taken(self):
        for make in (by_array, by_ctypes):
            for call in CALLS.values():
                with self.subTest(f"{call.name} {make.__name__}"):
                    self.assertEqual(made(call, good(call, make))["place"], 0)

    @each(Read)
    def test_read_only_buffers_are_read(self, call, argument):
        if not argument.written:
            given = good(call, by_array)
            given[argument.name] = memoryview(given[argument.name]).toreadonly()
            made(call, given)
            self.assertEqual(given[argument.name].tobytes(), bytes(memoryview(good(call, by_array)[argument.name])))

    @each(Read)
    def test_shapes_do_not_matter(self, call, argument):
        given = good(call, by_array)
        view = memoryview(given[argument.name])
        given[argument.name] = view.cast("B").cast(view.format, shape=[1, len(view)])
        made(call, given)

    @each(Read)
    def test_what_is_no_buffer_is_not_taken(self, call, argument):
        for value in (None, 5, 1.5, "text", [1, 2, 3], object()):
            self.refused(call, argument.name, value, TypeError, "is wanted")

    @each(Read)
    def test_numbers_of_another_type_are_not_taken(self, call, argument):
        length = len(good(call, by_array)[argument.name])
        for code in "bBhHiIqQfd":
            if code != CODES[argument.kind.name]:
                self.refused(call, argument.name, array(code, [0] * length), TypeError, "is wanted")
        other = {1: ctypes.c_int8, 2: ctypes.c_uint16.__ctype_be__, 4: ctypes.c_uint32.__ctype_be__, 8: ctypes.c_uint64.__ctype_be__}
        self.refused(call, argument.name, (other[argument.kind.size] * length)(), TypeError, "is wanted")

    @each(Read)
    def test_what_is_written_must_be_writable(self, call, argument):
        if argument.written:
            value = memoryview(good(call, by_array)[argument.name]).toreadonly()
            self.refused(call, argument.name, value, ValueError, "read-only")

    @each(Read)
    def test_what_does_not_stand_together_is_not_taken(self, call, argument):
        value = good(call, by_array)[argument.name]
        twice = memoryview(by_array(CODES[argument.kind.name], 2 * len(value) + 2))
        self.refused(call, argument.name, twice[::2], ValueError, "one behind the other")
        self.refused(call, argument.name, twice[::-1], ValueError, "one behind the other")

    @each(Read)
    def test_what_is_not_aligned_is_not_taken(self, call, argument):
        if argument.kind is not u8:
            value = good(call, by_array)[argument.name]
            size = argument.kind.size
            bytes_ = memoryview(bytearray(len(value) * size + 1))[1:]
            self.refused(call, argument.name, bytes_.cast(CODES[argument.kind.name]), ValueError, "not aligned")

    def test_nothing_is_lent_twice_where_it_is_written(self):
        pairs = 0
        for call in CALLS.values():
            slices = [argument for argument in call.arguments if isinstance(argument, Read)]
            for one in slices:
                for other in slices:
                    if one is other or one.kind is not other.kind:
                        continue
                    with self.subTest(f"{call.name} {one.name} {other.name}"):
                        given = good(call, by_array)
                        given[other.name] = given[one.name]
                        before = whole(given)
                        if one.written or other.written:
                            pairs += 1
                            with self.assertRaisesRegex(ValueError, "lent twice"):
                                made(call, given)
                            self.assertEqual(whole(given), before)
                        elif len(good(call, by_array)[other.name]) == len(given[one.name]):
                            # Both are read: this is the library's to answer.
                            try:
                                made(call, given)
                            except Refused:
                                pass
        self.assertGreater(pairs, 100)

    def test_parts_of_one_buffer_are_told_from_overlapping_ones(self):
        held = case_t()
        both = bytearray(54)
        views = memoryview(both)
        views[:27] = held.flags
        first, second = held._replace(flags=views[:27]), case_t()._replace(flags=views[27:])
        CALLS["skw_run"](3, *first, *second, bytearray(27), *THREE, 1024, 0, 0, -1024, False)
        for at in (0, 1, 13, 26):
            second = case_t()._replace(flags=views[at : at + 27])
            with self.assertRaisesRegex(ValueError, "lent twice"):
                CALLS["skw_run"](3, *first, *second, bytearray(27), *THREE, 1024, 0, 0, -1024, False)
        # A slice of another type over the same bytes, and a small one inside a large one.
        words = array("Q", bytes(19 * 27 * 4 // 8 * 8 + 8))
        parts = memoryview(words).cast("B")[: 19 * 27 * 4].cast("i")
        for k, part in enumerate(held.parts):
            parts[k] = part
        count = memoryview(words)[8:9]
        with self.assertRaisesRegex(ValueError, "lent twice"):
            CALLS["skw_run"](3, *held._replace(parts=parts, count=count), *case_t(), bytearray(27), *THREE, 1024, 0, 0, 0, False)

    @each(Read)
    def test_lengths_are_the_librarys_to_refuse(self, call, argument):
        if argument.name in ("rec", "text", "room"):
            return
        for change in (-1, 1):
            given = good(call, by_array)
            before = whole(given)
            value = given[argument.name]
            given[argument.name] = value[:-1] if change < 0 else value + value[:1]
            changed = bytes(memoryview(given[argument.name]))
            with self.assertRaises(Refused) as caught:
                made(call, given)
            self.assertEqual((caught.exception.number, caught.exception.place), (2, 0))
            before[argument.name] = changed
            self.assertEqual(whole(given), before)

    @each(Read)
    def test_empty_buffers_are_taken(self, call, argument):
        given = good(call, by_array)
        given[argument.name] = by_array(CODES[argument.kind.name], 0)
        with self.assertRaises(Refused):
            made(call, given)

    @each(Number)
    def test_numbers_must_be_whole(self, call, argument):
        for value in (None, 1.0, "1", b"1", [1], True, False, 1j):
            self.refused(call, argument.name, value, TypeError, "a whole number is wanted")

    @each(Number)
    def test_numbers_must_fit(self, call, argument):
        for value in (argument.kind.least - 1, argument.kind.most + 1, -(10**30), 10**30, -(1 << 20000), 1 << 20000):
            self.refused(call, argument.name, value, ValueError, "is wanted")

    @each(Number)
    def test_the_widest_numbers_are_the_librarys_to_refuse(self, call, argument):
        for value in (argument.kind.least, argument.kind.most):
            given = good(call, by_array)
            given[argument.name] = value
            try:
                made(call, given)
            except Refused:
                continue
            # 0 is a start, a number of steps, a cell, a column or an axis like any other.
            self.assertEqual(value, 0)
            self.assertIn(argument.name, ("start", "steps", "cell", "x", "y", "axis"))

    def test_numbers_by_index_are_taken(self):
        class Index:
            def __index__(self):
                return 13

        given = good(CALLS["skw_pour"], by_array)
        given["cell"] = Index()
        self.assertEqual(made(CALLS["skw_pour"], given)["moved"], 5)

    @each(Mode)
    def test_the_mode_is_a_bool(self, call, argument):
        for value in (None, 0, 1, "yes", 1.0):
            self.refused(call, argument.name, value, TypeError, "True or False")

    def test_buffers_are_let_go(self):
        call = CALLS["skw_check"]
        for change in (0, 1):
            given = good(call, by_array)
            given["fills"][13] += change
            try:
                made(call, given)
            except Refused as refused:
                kept = refused
            given["flags"].append(0)
            given["parts"].append(0)
        self.assertEqual((kept.number, kept.place), (6, 13))

    def test_flume_sets_are_not_the_boxs(self):
        with self.assertRaises(Refused) as caught:
            CALLS["skw_check"](*flume_blank((3, 9)), 3, 3, 3)
        self.assertEqual(caught.exception.number, 2)


if __name__ == "__main__":
    unittest.main()
