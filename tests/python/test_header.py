"""That the calls are declared as include/skwarzyna.h declares them, to the argument."""

import re
import unittest

from scenes import TOP
from skwarzyna import lent, values
from skwarzyna.library import CALLS, Answer, Mode, Number, Read, f32, i32, i64, size, u8, u16, u32, u64

TYPES = {
    "uint8_t": u8,
    "uint16_t": u16,
    "uint32_t": u32,
    "uint64_t": u64,
    "int32_t": i32,
    "int64_t": i64,
    "size_t": size,
    "float": f32,
}
HEADER = re.sub(r"/\*.*?\*/", "", (TOP / "include/skwarzyna.h").read_text(), flags=re.S)


def declared():
    """Of each call what it returns, and each argument as C has it: const, type, pointer, name."""
    for returns, name, inner in re.findall(r"^(\w+) (skw_\w+)\(([^)]*)\);", HEADER, flags=re.M):
        yield returns, name, [re.fullmatch(r"(const )?(\w+) (\*?)(\w+)", one.strip()).groups() for one in inner.split(",")]


def described(call):
    """The same of a call of the package."""
    back = {kind: name for name, kind in TYPES.items()}
    for argument in call.arguments:
        if isinstance(argument, Read):
            yield None if argument.written else "const ", back[argument.kind], "*", argument.name
            yield None, "size_t", "", argument.name + "_len"
        elif isinstance(argument, Answer):
            yield None, back[argument.kind], "*", argument.name
        elif isinstance(argument, Mode):
            yield None, "bool", "", "turbulent"
        else:
            assert isinstance(argument, Number)
            yield None, back[argument.kind], "", argument.name


class Header(unittest.TestCase):
    def test_calls_are_the_headers(self):
        names = []
        for returns, name, arguments in declared():
            with self.subTest(name):
                self.assertEqual(list(described(CALLS[name])), arguments)
                self.assertEqual(returns, "size_t" if CALLS[name].counts else "uint8_t")
                self.assertTrue(callable(getattr(lent, name[len("skw_") :])) and getattr(lent, name[len("skw_") :]).__doc__)
            names.append(name)
        self.assertEqual(sorted(names), sorted(CALLS))
        self.assertEqual(sorted(name[len("skw_") :] for name in names), sorted(lent.__all__))
        self.assertEqual(len(names), 28)

    def test_numbers_are_the_headers(self):
        constants = dict(re.findall(r"^#define SKW_(\w+) (\d+)$", HEADER, flags=re.M))
        for name in ("ONE", "FULL", "PARTS", "FLUME_PARTS"):
            self.assertEqual(getattr(values, name), int(constants[name]))
        enums = dict(re.findall(r"SKW_(\w+) = (\d+)", HEADER))
        for name in ("EMPTY", "INTERFACE", "FLUID", "WALL"):
            self.assertEqual(getattr(values, name), int(enums[name]))
        self.assertEqual(values.AXES, {axis: int(enums[f"AXIS_{axis.upper()}"]) for axis in "xyz"})
        kinds = {int(enums[f"LINE_{name}"]): name.lower() for name in ("SOLID", "DRY", "DEEP", "OUTSIDE")}
        self.assertEqual(values.KINDS, kinds)


if __name__ == "__main__":
    unittest.main()
