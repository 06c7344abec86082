// A refusal as a person can find it: document 01's words, and its place by cell, byte or section.

use skwarzyna::{Place, Refusal, Sides};

/// The sections of a record: what each holds, and the bytes of a number in it.
pub const SECTIONS: [(&str, usize); 7] = [
    ("sides", 4),
    ("settings", 4),
    ("origin", 8),
    ("carry, poured, taken", 8),
    ("flags", 1),
    ("interface masses", 4),
    ("parts of liquid cells", 4),
];

/// The section that the flume has another name for.
pub const CARRY: usize = 4;

/// A refusal in a grid of these sides.
pub fn in_grid(refusal: Refusal, sides: Sides) -> String {
    let cell = |cell: usize| {
        let (x, y, z) = sides.position(cell);
        format!("at cell {cell} (x {x}, y {y}, z {z})")
    };
    let Refusal { number, .. } = refusal;
    let words = refusal.words();
    match refusal.at() {
        Place::CellOrCarry(at) if at == sides.nx * sides.ny * sides.nz => {
            format!("refusal {number}: {words}, at {at}, which stands for the carry, poured or taken")
        }
        Place::Cell(at) | Place::CellOrCarry(at) => format!("refusal {number}: {words}, {}", cell(at)),
        Place::None if number == Refusal::OUTSIDE => {
            format!("{refusal}: the grid has {} x {} x {} cells", sides.nx, sides.ny, sides.nz)
        }
        _ => refusal.to_string(),
    }
}

/// A refusal of the reader, told with what the record has there.
pub fn in_record(refusal: Refusal, record: &[u8]) -> String {
    let numbers = Numbers(record);
    let told = match refusal.at() {
        Place::Byte(byte) => match numbers.section_from(byte) {
            Some(section) => {
                let rest = record.len().saturating_sub(byte);
                let section = named(section, SECTIONS[section - 1].0);
                format!(": {section} begins there and is not whole, {rest} bytes being left")
            }
            None => ": the record should end there, and does not".to_string(),
        },
        Place::Section(section) => match numbers.count(section) {
            Some(2) if section == 1 => {
                " (sides): it is 2, as in a record of the flume, for which there is skw flume".to_string()
            }
            Some(count) => format!(" ({}): it is {count}", SECTIONS[section - 1].0),
            None => String::new(),
        },
        Place::None => match refusal.number {
            Refusal::SIDES => format!(": its sides are {}", numbers.list(1, " x ")),
            Refusal::SETTING => format!(
                ": its p, gravity and edge are {}, its origin is {}",
                numbers.list(2, ", "),
                numbers.list(3, ", ")
            ),
            _ => String::new(),
        },
        _ => match numbers.sides() {
            Some(sides) => return in_grid(refusal, sides),
            None => String::new(),
        },
    };
    format!("{refusal}{told}")
}

pub fn named(section: usize, name: &str) -> String {
    format!("section {section} ({name})")
}

/// The numbers of a record that is refused, as far as it has them.
pub struct Numbers<'a>(pub &'a [u8]);

impl Numbers<'_> {
    fn u32_at(&self, at: usize) -> Option<u32> {
        let bytes = self.0.get(at..at.checked_add(4)?)?;
        Some(u32::from_le_bytes(bytes.try_into().ok()?))
    }

    /// Where a section begins, 1 to 7, or with 8 the rest, by the counts of those before it.
    fn start(&self, section: usize) -> Option<usize> {
        let mut at = 0usize;
        for (_, width) in &SECTIONS[..section - 1] {
            let count = usize::try_from(self.u32_at(at)?).ok()?;
            at = at.checked_add(4)?.checked_add(count.checked_mul(*width)?)?;
        }
        Some(at)
    }

    pub fn section_from(&self, byte: usize) -> Option<usize> {
        (1..=SECTIONS.len()).find(|&section| self.start(section) == Some(byte))
    }

    pub fn count(&self, section: usize) -> Option<u32> {
        self.u32_at(self.start(section)?)
    }

    /// The numbers of section 1, 2 or 3.
    pub fn list(&self, section: usize, between: &str) -> String {
        let width = SECTIONS[section - 1].1;
        let numbers = self.start(section).and_then(|start| {
            let count = usize::try_from(self.count(section)?).ok()?;
            self.0.get(start + 4..(start + 4).checked_add(count.checked_mul(width)?)?)
        });
        let spelled = numbers.unwrap_or(&[]).chunks_exact(width).map(|bytes| match (section, bytes) {
            (1, &[a, b, c, d]) => u32::from_le_bytes([a, b, c, d]).to_string(),
            (_, &[a, b, c, d]) => i32::from_le_bytes([a, b, c, d]).to_string(),
            (_, bytes) => i64::from_le_bytes(bytes.try_into().unwrap_or([0; 8])).to_string(),
        });
        spelled.collect::<Vec<_>>().join(between)
    }

    /// A side that stands there.
    pub fn side(&self, at: usize) -> Option<usize> {
        usize::try_from(self.u32_at(at)?).ok()
    }

    fn sides(&self) -> Option<Sides> {
        let sides = Sides::new(self.side(4)?, self.side(8)?, self.side(12)?);
        sides.cells().ok().map(|_| sides)
    }
}
