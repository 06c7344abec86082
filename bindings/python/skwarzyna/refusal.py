"""Refusals: number and place of document 01's table, and its words."""

__all__ = ["Refused"]

# Document 01's words, as bindings/rust/src/refusal.rs has them.
WORDS = {
    1: "side or product outside its range",
    2: "a lent slice isn't of its exact length",
    3: "a setting, origin or point coordinate out of range",
    4: "flag above 3, or outer cell not wall",
    5: "fluid beside empty",
    6: "another rule of a good state broken",
    7: "streamed density or speed out of range",
    8: "next state breaks a rule of number 6",
    9: "steps above 1,000",
    10: "record ends early or has bytes left over",
    11: "a section's count is wrong",
    12: "room for the record or the depth map too small",
    13: "column, cell or point outside",
    14: "a word is not the one that the flags make, or the stored count is wrong",
    15: "the cell is not interface",
    16: "amount outside 1..589,824, or a mass or total would pass its limit",
    17: "outer cell, or the cell is already as asked",
    18: "water is in the way",
    19: "a header line of a height grid is unreadable",
    20: "a row is unreadable, or something follows the rows",
    21: "the list has room for fewer pools than there are",
    22: "the list has not 1 to 2,000 points",
    23: "a chainage is not above the one before",
}

# What the place of a number is, as it is told; of the numbers that are not here the place says nothing.
AT_CELL = ", at cell {}"
AT_CELL_OR_CARRY = ", at cell {} (the carry, poured or taken, where that is the number of cells)"
AT_LINE = ", at line {}"
AT_POINT = ", at point {}"
PLACES = {
    4: AT_CELL,
    5: AT_CELL,
    6: AT_CELL_OR_CARRY,
    7: AT_CELL,
    8: AT_CELL_OR_CARRY,
    10: ", at byte {}",
    11: ", in section {}",
    12: ", {} bytes needed",
    15: AT_CELL,
    17: AT_CELL,
    18: AT_CELL,
    19: AT_LINE,
    20: AT_LINE,
    21: ", which are {}",
    23: AT_POINT,
}


class Refused(Exception):
    """A call was refused, by a number and a place of document 01's table; printed, it says so in that table's words.

    number    1 to 23, by name Refused.SIDES and so on
    place     a cell, a byte, a section, a number of bytes, a line, a point of a list, a number of pools, or 0, by the number
    count     of a run the steps that were made before it stopped, else None

    Nothing is written then, but as step, run and pools say for 7, 8 and 21.
    """

    SIDES = 1
    LENGTH = 2
    SETTING = 3
    FLAG = 4
    LAYER = 5
    STATE = 6
    FLOW = 7
    NEXT = 8
    STEPS = 9
    END = 10
    COUNT = 11
    ROOM = 12
    OUTSIDE = 13
    INDEX = 14
    NOT_INTERFACE = 15
    AMOUNT = 16
    CHANGE = 17
    IN_THE_WAY = 18
    HEADER = 19
    ROW = 20
    POOLS = 21
    LIST = 22
    CHAINAGE = 23

    def __init__(self, number, place=0, count=None):
        super().__init__(number, place, count)
        self.number = number
        self.place = place
        self.count = count

    @property
    def words(self):
        """Document 01's words for the number."""
        return WORDS.get(self.number, "no number of document 01")

    def __str__(self):
        at = PLACES.get(self.number, "")
        if self.number == Refused.SETTING and self.place > 0:
            # 0 may be the edge or the origin as well as the first point.
            at = AT_POINT
        told = f"refusal {self.number}: {self.words}{at.format(self.place)}"
        return told if self.count is None else f"stopped after {self.count} steps by {told}"
