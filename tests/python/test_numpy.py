"""numpy's arrays lent and views taken, where numpy is there; the package does not need it."""

import sys
import unittest

import skwarzyna
from scenes import FALLING, MIDDLE, THREE, by_array, case_t, told
from skwarzyna import Grid, Held, Refused, lent

try:
    import numpy
except ImportError:
    numpy = None

TYPES = {"B": "uint8", "i": "int32", "I": "uint32", "q": "int64", "Q": "uint64", "H": "uint16", "f": "float32"}


def by_numpy(code, count):
    return numpy.zeros(count, TYPES[code])


class Without(unittest.TestCase):
    def test_numpy_is_not_asked_for(self):
        self.assertFalse([name for name in sys.modules if name.startswith("skwarzyna.") and hasattr(sys.modules[name], "numpy")])
        self.assertFalse(hasattr(skwarzyna, "numpy"))


@unittest.skipUnless(numpy, "numpy is not on this machine")
class With(unittest.TestCase):
    def test_arrays_are_lent(self):
        for turbulent in (False, True):
            sets = []
            for make in (by_array, by_numpy):
                first, second, marks = case_t(make), case_t(make), make("B", 27)
                lent.step(THREE, FALLING, first, second, marks, turbulent)
                lent.run(THREE, FALLING, 20, second, first, marks, turbulent)
                lent.pour(THREE, second, MIDDLE, 500)
                sets.append(told(second))
            self.assertEqual(*sets)

    def test_arrays_of_any_shape(self):
        held = case_t(by_numpy)
        shaped = Held(held.flags.reshape(3, 3, 3), held.parts.reshape(3, 3, 3, 19), *held[2:])
        lent.check(THREE, shaped)
        lent.check(numpy_sides(), shaped)
        for flags in (shaped.flags.transpose(2, 1, 0)[::-1], numpy.asfortranarray(shaped.flags), held.flags[::-1]):
            with self.assertRaisesRegex(ValueError, "one behind the other"):
                lent.check(THREE, held._replace(flags=flags))

    def test_arrays_of_other_types(self):
        held = case_t(by_numpy)
        for kind in ("int8", "bool", "float64", "int64", ">u2", "complex64"):
            with self.assertRaises(TypeError):
                lent.check(THREE, held._replace(flags=held.flags.astype(kind)))
        with self.assertRaises(TypeError):
            lent.check(THREE, held._replace(parts=held.parts.astype(">i4")))
        held.masses.flags.writeable = False
        lent.check(THREE, held)
        with self.assertRaisesRegex(ValueError, "masses: the buffer is read-only"):
            lent.pour(THREE, held, MIDDLE, 5)
        with self.assertRaisesRegex(ValueError, "not aligned"):
            lent.check(THREE, held._replace(masses=numpy.frombuffer(bytearray(109), "uint8")[1:].view("int32")))
        with self.assertRaises(Refused):
            lent.check(THREE, held._replace(masses=held.masses[1:]))

    def test_views_are_arrays(self):
        grid = Grid(5, 4, 3)
        fills = numpy.asarray(grid.fills).reshape(3, 4, 5)
        grid.set_fluid(grid.cell(2, 1, 1))
        self.assertEqual(fills[1, 1, 2], 65_536)
        self.assertEqual(fills.sum(), 65_536)
        with self.assertRaises(ValueError):
            fills[1, 1, 2] = 0
        self.assertEqual(grid.cell(*numpy.array([2, 1, 1])), 27)


def numpy_sides():
    return tuple(numpy.array([3, 3, 3]))


if __name__ == "__main__":
    unittest.main()
