"""The library through this package beside the Rust wrapper's command, in both modes, on records by seed."""

import os
import subprocess
import unittest

from scenes import oracle
from skwarzyna import Flume, Grid, Refused

SKW = os.environ.get("SKW")
SEEDS = range(30)
STEPS = 25


def skw(*arguments, given):
    """Status, result and remarks of skw."""
    done = subprocess.run([SKW, *map(str, arguments)], input=given, stdout=subprocess.PIPE, stderr=subprocess.PIPE, check=False)
    return done.returncode, done.stdout, done.stderr.decode()


def tried(act):
    """What an act answers, or its refusal."""
    try:
        return act()
    except Refused as refused:
        return refused


@unittest.skipUnless(SKW, "SKW names no skw")
class Skw(unittest.TestCase):
    def test_runs_in_both_modes(self):
        refused = accepted = 0
        for kind, words in ((Grid, ()), (Flume, ("flume",))):
            for seed in SEEDS:
                record = oracle(*words, "make", "good", seed)
                for mode in ((), ("--turbulent",)):
                    made = kind.read(record)
                    stopped = tried(lambda: made.run(STEPS, turbulent=bool(mode)))
                    status, written, said = skw(*words, "run", STEPS, *mode, given=record)
                    with self.subTest(f"{kind.__name__} {seed} {mode}"):
                        self.assertEqual((status, written), (int(stopped is not None), made.write()))
                        if stopped:
                            self.assertIn(f"refusal {stopped.number}: {stopped.words}", said)
                    refused, accepted = refused + (stopped is not None), accepted + (stopped is None)
        self.assertGreater(min(refused, accepted), 30)

    def test_acts_and_mirrors(self):
        for seed in SEEDS:
            record = oracle("make", "good", seed)
            grid = Grid.read(record)
            for axis in "xyz":
                self.assertEqual(skw("mirror", axis, "-q", given=record)[1], grid.mirrored(axis).write())
            for cell in list(grid.surface())[:2] + [0, grid.cells]:
                for name in ("pour", "take"):
                    poured = grid.copy()
                    moved = tried(lambda: getattr(poured, name)(cell, 5000))
                    status, written, said = skw(name, cell, 5000, given=record)
                    if isinstance(moved, Refused):
                        self.assertEqual((status, written), (1, b""))
                        self.assertIn(f"refusal {moved.number}: {moved.words}", said)
                    else:
                        self.assertEqual((status, written), (0, poured.write()))
            record = oracle("flume", "make", "good", seed)
            for axis in "xz":
                self.assertEqual(skw("flume", "mirror", axis, "-q", given=record)[1], Flume.read(record).mirrored(axis).write())

    def test_readings(self):
        for seed in SEEDS:
            record = oracle("make", "good", seed)
            grid = Grid.read(record)
            self.assertEqual(skw("depths", given=record)[1].decode(), grid.depth_map())
            told = skw("surface", given=record)[1].decode().splitlines()
            self.assertEqual(int(told[0].split()[0].replace(",", "")), grid.surface_count())
            told = skw("pools", given=record)[1].decode()
            for pool in grid.pools():
                self.assertRegex(told, rf"(?m)^ *{pool.number:,} +{pool.cells:,} +{pool.water:,} ")

    def test_damaged_records(self):
        refused = 0
        for seed in range(100):
            record = oracle("make", "bad", seed)
            told = tried(lambda: Grid.read(record))
            if isinstance(told, Refused):
                refused += 1
                self.assertIn(f"refusal {told.number}: {told.words}", skw("check", given=record)[2])
        self.assertGreater(refused, 50)


if __name__ == "__main__":
    unittest.main()
