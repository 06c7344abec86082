"""Where the library is found, what is said where it is not, and what help tells."""

import ast
import inspect
import os
import shutil
import tempfile
import unittest
from pathlib import Path

import skwarzyna
from scenes import TOP, python

PACKAGE = TOP / "bindings/python/skwarzyna"


class Library(unittest.TestCase):
    def test_a_missing_library_is_told(self):
        for environment, text in (
            ({"SKWARZYNA_LIBRARY": "/nowhere/x.so"}, "ImportError: SKWARZYNA_LIBRARY names /nowhere/x.so, and there is no such file."),
            ({"SKWARZYNA_LIBRARY": str(TOP)}, "there is no such file"),
            ({"SKWARZYNA_LIBRARY": ""}, "and SKWARZYNA_LIBRARY is not set."),
            ({"SKWARZYNA_LIBRARY": str(TOP / "README.md")}, "README.md is not loaded"),
        ):
            status, _, said = python("import skwarzyna", **environment)
            self.assertEqual(status, 1)
            self.assertIn(text, said)
            self.assertIn("export SKWARZYNA_LIBRARY=$(bindings/object --shared)", said)

    def test_another_library_is_told(self):
        import _ctypes

        if not _ctypes.__file__.endswith(".so"):
            self.skipTest("Python has no shared library to try")
        status, _, said = python("import skwarzyna", SKWARZYNA_LIBRARY=_ctypes.__file__)
        self.assertEqual(status, 1)
        self.assertIn("is not the skwarzyna library", said)

    def test_beside_the_package(self):
        library = os.environ["SKWARZYNA_LIBRARY"]
        for inside in (True, False):
            with tempfile.TemporaryDirectory() as scratch:
                shutil.copytree(PACKAGE, Path(scratch) / "skwarzyna")
                shutil.copy(library, Path(scratch) / ("skwarzyna" if inside else "") / "libskwarzyna.so")
                text = "import skwarzyna; print(skwarzyna.Grid(3, 3, 3).cells)"
                status, told, said = python(text, SKWARZYNA_LIBRARY="", PYTHONPATH=scratch)
                self.assertEqual((status, told, said), (0, "27\n", ""))

    def test_a_name_without_a_folder(self):
        folder, name = os.path.split(os.environ["SKWARZYNA_LIBRARY"])
        status, told, said = python(f"import os; os.chdir({folder!r}); import skwarzyna; print(1)", SKWARZYNA_LIBRARY=name)
        self.assertEqual((status, told, said), (0, "1\n", ""))

    def test_help_is_there(self):
        status, told, _ = python("import skwarzyna; help(skwarzyna)")
        self.assertEqual(status, 0)
        self.assertLess(told.count("\n"), 600)
        status, told, _ = python("import skwarzyna; help(skwarzyna); help(skwarzyna.lent); help(skwarzyna.values)")
        self.assertEqual(status, 0)
        for text in ("proved to add up to the unit", "class Grid", "surface_next(sides, words, start)", "from_invert(text, nz, oz=0"):
            self.assertIn(text, told)
        for name in set(skwarzyna.__all__) | {name for name in vars(skwarzyna) if not name.startswith("_")}:
            thing = getattr(skwarzyna, name)
            if inspect.isclass(thing) or callable(thing) or inspect.ismodule(thing):
                self.assertTrue(thing.__doc__, name)
            if inspect.isclass(thing):
                for method, what in vars(thing).items():
                    if not method.startswith("_") and (callable(what) or isinstance(what, (classmethod, property))):
                        self.assertTrue(inspect.getdoc(what), f"{name}.{method}")

    def test_it_reads_as_the_oldest_python(self):
        for source in PACKAGE.glob("*.py"):
            ast.parse(source.read_text(), feature_version=(3, 9))


if __name__ == "__main__":
    unittest.main()
