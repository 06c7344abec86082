// Refusals: number and place of document 01's table, and its words.

use std::error::Error;
use std::fmt::{Display, Formatter, Result as Written};

/// Why a call was refused. Nothing is written then, but as each call says for 7, 8 and 21.
#[derive(Clone, Copy, Debug, PartialEq, Eq, Hash)]
pub struct Refusal {
    /// 1 to 23; [`SIDES`](Refusal::SIDES) and so on.
    pub number: u8,
    /// A cell, a byte, a section, a number of bytes, a line, a point of a list, a number of pools, or 0, by the number.
    pub place: usize,
}

/// What the place of a refusal is.
#[derive(Clone, Copy, Debug, PartialEq, Eq, Hash)]
pub enum Place {
    /// Nothing: the number says it all.
    None,
    Cell(usize),
    /// A cell, or the carry, poured or taken where it is the number of cells.
    CellOrCarry(usize),
    /// A byte of the record, where a section or the rest begins.
    Byte(usize),
    /// A section of the record, 1 to 7.
    Section(usize),
    /// The bytes that the record or the depth map needs.
    Room(usize),
    /// A line of a height grid's text, from 1.
    Line(usize),
    /// A point of a profile's list, from 0.
    Point(usize),
    /// The pools that there are.
    Pools(usize),
}

impl Refusal {
    /// A side or the product of the sides is outside its range.
    pub const SIDES: u8 = 1;
    /// A lent slice is not of its exact length.
    pub const LENGTH: u8 = 2;
    /// A setting, origin or point coordinate is out of range. Place: of a profile's points the first such point, else 0.
    pub const SETTING: u8 = 3;
    /// A flag is above 3, or an outer cell is not wall. Place: the lowest such cell.
    pub const FLAG: u8 = 4;
    /// Fluid beside empty. Place: the lowest such fluid cell.
    pub const LAYER: u8 = 5;
    /// Another rule of a good state is broken. Place: the lowest such cell, the number of cells for the carry, poured or taken alone.
    pub const STATE: u8 = 6;
    /// Streamed density or speed is out of range. Place: the lowest such cell.
    pub const FLOW: u8 = 7;
    /// The next state breaks a rule of number 6. Place as there.
    pub const NEXT: u8 = 8;
    /// Steps above 1,000.
    pub const STEPS: u8 = 9;
    /// The record ends early or has bytes left over. Place: the byte where the section or the rest begins.
    pub const END: u8 = 10;
    /// A section's count is wrong. Place: the section, 1 to 7.
    pub const COUNT: u8 = 11;
    /// Room for the record or the depth map is too small. Place: the bytes needed.
    pub const ROOM: u8 = 12;
    /// Column, cell or point outside, or a start above the number of cells.
    pub const OUTSIDE: u8 = 13;
    /// A word of the index is not the one that the flags make, or the stored count is not the number of interface cells.
    pub const INDEX: u8 = 14;
    /// The cell of a pour or a take is not interface. Place: the cell.
    pub const NOT_INTERFACE: u8 = 15;
    /// An amount outside 1 to 589,824, or one with which the mass would pass 2,359,296, or poured or taken 10^15.
    pub const AMOUNT: u8 = 16;
    /// A wall change at an outer cell, or the cell is already as asked. Place: the cell.
    pub const CHANGE: u8 = 17;
    /// A wall change with water in the way, the asker's or the other's. Place: the cell.
    pub const IN_THE_WAY: u8 = 18;
    /// A header line of a height grid is unreadable. Place: its line, 1 to 6.
    pub const HEADER: u8 = 19;
    /// A row of a height grid is unreadable, or something follows the rows. Place: its line.
    pub const ROW: u8 = 20;
    /// The list has room for fewer pools than there are. Place: their number.
    pub const POOLS: u8 = 21;
    /// A profile's list has not 1 to 2,000 points.
    pub const LIST: u8 = 22;
    /// A profile's chainage is not above the one before. Place: the first such point.
    pub const CHAINAGE: u8 = 23;

    pub(crate) fn new(number: u8, place: usize) -> Refusal {
        Refusal { number, place }
    }

    /// Document 01's words for the number.
    pub fn words(&self) -> &'static str {
        match self.number {
            Refusal::SIDES => "side or product outside its range",
            Refusal::LENGTH => "a lent slice isn't of its exact length",
            Refusal::SETTING => "a setting, origin or point coordinate out of range",
            Refusal::FLAG => "flag above 3, or outer cell not wall",
            Refusal::LAYER => "fluid beside empty",
            Refusal::STATE => "another rule of a good state broken",
            Refusal::FLOW => "streamed density or speed out of range",
            Refusal::NEXT => "next state breaks a rule of number 6",
            Refusal::STEPS => "steps above 1,000",
            Refusal::END => "record ends early or has bytes left over",
            Refusal::COUNT => "a section's count is wrong",
            Refusal::ROOM => "room for the record or the depth map too small",
            Refusal::OUTSIDE => "column, cell or point outside",
            Refusal::INDEX => "a word is not the one that the flags make, or the stored count is wrong",
            Refusal::NOT_INTERFACE => "the cell is not interface",
            Refusal::AMOUNT => "amount outside 1..589,824, or a mass or total would pass its limit",
            Refusal::CHANGE => "outer cell, or the cell is already as asked",
            Refusal::IN_THE_WAY => "water is in the way",
            Refusal::HEADER => "a header line of a height grid is unreadable",
            Refusal::ROW => "a row is unreadable, or something follows the rows",
            Refusal::POOLS => "the list has room for fewer pools than there are",
            Refusal::LIST => "the list has not 1 to 2,000 points",
            Refusal::CHAINAGE => "a chainage is not above the one before",
            _ => "no number of document 01",
        }
    }

    /// The place as what it is.
    pub fn at(&self) -> Place {
        match self.number {
            Refusal::FLAG
            | Refusal::LAYER
            | Refusal::FLOW
            | Refusal::NOT_INTERFACE
            | Refusal::CHANGE
            | Refusal::IN_THE_WAY => Place::Cell(self.place),
            Refusal::STATE | Refusal::NEXT => Place::CellOrCarry(self.place),
            Refusal::END => Place::Byte(self.place),
            Refusal::COUNT => Place::Section(self.place),
            Refusal::ROOM => Place::Room(self.place),
            Refusal::HEADER | Refusal::ROW => Place::Line(self.place),
            Refusal::CHAINAGE => Place::Point(self.place),
            Refusal::POOLS => Place::Pools(self.place),
            // 0 may be the edge or the origin as well.
            Refusal::SETTING if self.place > 0 => Place::Point(self.place),
            _ => Place::None,
        }
    }
}

impl Display for Refusal {
    fn fmt(&self, text: &mut Formatter) -> Written {
        write!(text, "refusal {}: {}", self.number, self.words())?;
        match self.at() {
            Place::None => Ok(()),
            Place::Cell(cell) => write!(text, ", at cell {cell}"),
            Place::CellOrCarry(cell) => {
                write!(
                    text,
                    ", at cell {cell} (the carry, poured or taken, where that is the number of cells)"
                )
            }
            Place::Byte(byte) => write!(text, ", at byte {byte}"),
            Place::Section(section) => write!(text, ", in section {section}"),
            Place::Room(bytes) => write!(text, ", {bytes} bytes needed"),
            Place::Line(line) => write!(text, ", at line {line}"),
            Place::Point(point) => write!(text, ", at point {point}"),
            Place::Pools(pools) => write!(text, ", which are {pools}"),
        }
    }
}

impl Error for Refusal {}

/// A run that did not make all its steps. The grid then holds the state that those it made have reached.
#[derive(Clone, Copy, Debug, PartialEq, Eq, Hash)]
pub struct Stopped {
    /// How many steps were made.
    pub count: usize,
    /// What stopped it.
    pub refusal: Refusal,
}

impl Display for Stopped {
    fn fmt(&self, text: &mut Formatter) -> Written {
        write!(text, "stopped after {} steps by {}", self.count, self.refusal)
    }
}

impl Error for Stopped {}

impl From<Stopped> for Refusal {
    fn from(stopped: Stopped) -> Refusal {
        stopped.refusal
    }
}
