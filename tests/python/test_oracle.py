"""The library through this package beside the independent program, on records by seed, good and damaged."""

import unittest

from scenes import ORACLE, oracle
from skwarzyna import Flume, Grid, Refused

SEEDS = range(40)
STEPS = 7


def outcome(kind, record):
    """The record of a run as the independent program prints it, and what it leaves."""
    try:
        made = kind.read(record)
    except Refused as refused:
        return None, f"record {refused.number} {refused.place}\n".encode()
    line = f"run {STEPS} 0 0\n"
    try:
        made.run(STEPS)
    except Refused as refused:
        line = f"run {refused.count} {refused.number} {refused.place}\n"
    return made, line.encode() + made.write()


@unittest.skipUnless(ORACLE.exists(), "the independent program is not built")
class Oracle(unittest.TestCase):
    def test_runs_of_the_box(self):
        accepted = refused = stopped = 0
        for seed in SEEDS:
            for quality in ("good", "bad"):
                record = oracle("make", quality, seed)
                wanted = oracle("gridrun", STEPS, given=record)
                made, told = outcome(Grid, record)
                with self.subTest(f"{quality} {seed}"):
                    self.assertEqual(told, wanted)
                accepted, refused = accepted + bool(made), refused + (not made)
                stopped += bool(made) and not told.startswith(b"run 7 0 0")
        self.assertGreater(min(accepted, refused, stopped), 10)

    def test_steps_of_the_box(self):
        for seed in SEEDS:
            record = oracle("make", "good", seed)
            grid = Grid.read(record)
            if grid.cells > 862:
                continue
            lines = [self.line("before", grid)]
            try:
                grid.step()
                lines.append("step 0 0")
            except Refused as refused:
                lines.append(f"step {refused.number} {refused.place}")
            lines.append(self.line("after", grid))
            self.assertEqual("\n".join(lines) + "\n", oracle("gridstep", given=record).decode())

    def line(self, word, grid):
        counts, water = grid.counts(), grid.water()
        return f"{word} {counts.fluid} {counts.interface} {counts.empty} {counts.wall} {water.total} {water.carry}"

    def test_runs_of_the_flume(self):
        accepted = refused = 0
        for seed in SEEDS:
            for quality in ("good", "bad"):
                record = oracle("flume", "make", quality, seed)
                made, told = outcome(Flume, record)
                with self.subTest(f"{quality} {seed}"):
                    self.assertEqual(told, oracle("flume", "run", STEPS, given=record))
                accepted, refused = accepted + bool(made), refused + (not made)
        self.assertGreater(min(accepted, refused), 10)

    def test_records_and_water(self):
        for seed in SEEDS:
            record = oracle("make", "good", seed)
            grid = Grid.read(record)
            written = grid.write()
            self.assertIn(written, (record, record[:68] + b"\3\0\0\0" + record[72:80] + bytes(16) + record[80:]))
            self.assertEqual(Grid.read(written), grid)
            water = grid.water()
            told = (water.fluid, water.interface, water.carry, water.total, water.poured, water.taken, water.balance)
            self.assertEqual(" ".join(map(str, told)), oracle("water", given=record).decode().strip())
            record = oracle("flume", "make", "good", seed)
            flume = Flume.read(record)
            self.assertEqual(flume.write(), record)
            water = flume.water()
            told = (water.fluid, water.interface, water.carry, water.total)
            self.assertEqual(" ".join(map(str, told)), oracle("flume", "water", given=record).decode().strip())

    def test_readings(self):
        for seed in SEEDS:
            record = oracle("make", "good", seed)
            grid = Grid.read(record)
            if grid.cells > 4096:
                continue
            nx, ny, _ = grid.sides
            requests, told = [], []
            for x in range(nx + 1):
                for y in range(ny + 1):
                    requests += ["depth", x, y]
                    told.append(self.answer("depth", lambda: self.depth(grid.depth(x, y))))
            for cell in range(0, grid.cells + 3, 5):
                requests += ["point", cell]
                told.append(self.answer("point", lambda: self.point(grid.point(cell))))
            edge, *corner = grid.site
            for way in range(-1, max(grid.sides) + 2):
                point = [at + way * edge + way for at in corner]
                requests += ["place", *point]
                told.append(self.answer("place", lambda: f"cell {grid.place(*point)}"))
            self.assertEqual(told, oracle("gridread", *requests, given=record).decode().splitlines())

    def answer(self, word, ask):
        try:
            return f"{word} {ask()}"
        except Refused as refused:
            return f"{word} {refused.number} {refused.place}"

    def depth(self, depth):
        return f"{depth.cells * 65_536:.0f}/65536" if depth.kind == "deep" else depth.kind

    def point(self, point):
        return " ".join(f"{2 * at:.0f}/2" for at in point[:3]) + f" {point.fill * 65_536:.0f}/65536"


if __name__ == "__main__":
    unittest.main()
