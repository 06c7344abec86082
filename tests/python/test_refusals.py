"""That refusals are told in the words of the Rust wrapper, which are document 01's."""

import pickle
import re
import unittest

from scenes import TOP
from skwarzyna import Refused
from skwarzyna.refusal import WORDS

SOURCE = (TOP / "bindings/rust/src/refusal.rs").read_text()
TOLD = (TOP / "bindings/rust/tests/words.rs").read_text()


class Refusals(unittest.TestCase):
    def test_names_and_words_are_the_wrappers(self):
        numbers = {name: int(number) for name, number in re.findall(r"pub const (\w+): u8 = (\d+);", SOURCE)}
        words = {numbers[name]: text for name, text in re.findall(r'Refusal::(\w+) => "([^"]*)",', SOURCE)}
        self.assertEqual(len(numbers), 23)
        self.assertEqual(WORDS, words)
        for name, number in numbers.items():
            self.assertEqual(getattr(Refused, name), number)

    def test_refusals_are_told_as_there(self):
        told = re.findall(r'\(\s*(\d+),\s*(\d+),\s*"([^"]*)",?\s*\)', TOLD)
        self.assertGreater(len(told), 20)
        for number, place, text in told:
            self.assertEqual(str(Refused(int(number), int(place))), text)
        stopped = Refused(7, 13, 41)
        self.assertEqual(str(stopped), f"stopped after 41 steps by {Refused(7, 13)}")

    def test_every_place_is_told_as_there(self):
        # Numbers that the wrapper's own test does not tell: by what its source says of their place.
        self.assertEqual(str(Refused(15, 9)), "refusal 15: the cell is not interface, at cell 9")
        self.assertEqual(str(Refused(16)), "refusal 16: amount outside 1..589,824, or a mass or total would pass its limit")

    def test_a_refusal_can_be_handed_on(self):
        again = pickle.loads(pickle.dumps(Refused(7, 13, 41)))
        self.assertEqual((again.number, again.place, again.count), (7, 13, 41))
        self.assertEqual(again.words, "streamed density or speed out of range")
        self.assertIsNone(Refused(5).count)


if __name__ == "__main__":
    unittest.main()
