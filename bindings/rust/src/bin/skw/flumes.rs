// Records of the flume in and out, and refusals of them as a person can find them.

use skwarzyna::flume::Sides;
use skwarzyna::{Flume, Place, Refusal};

use crate::failure::Failure;
use crate::files::Input;
use crate::told::{named, Numbers, CARRY, SECTIONS};

/// The flume that an input holds, and its bytes.
pub fn read(input: &Input) -> Result<(Flume, Vec<u8>), Failure> {
    let bytes = input.bytes()?;
    let flume = Flume::from_record(&bytes);
    let flume = flume
        .map_err(|refusal| Failure::Refused(format!("{}: {}", input.name(), in_record(refusal, &bytes))))?;
    Ok((flume, bytes))
}

/// What the library refused of a flume that was read.
pub fn refused(flume: &Flume, refusal: Refusal) -> Failure {
    Failure::Refused(in_flume(refusal, flume.sides()))
}

/// A refusal in a flume of these sides.
pub fn in_flume(refusal: Refusal, sides: Sides) -> String {
    let (number, words) = (refusal.number, refusal.words());
    match refusal.at() {
        Place::CellOrCarry(at) if at == sides.nx * sides.nz => {
            format!("refusal {number}: {words}, at {at}, which stands for the carry")
        }
        Place::Cell(at) | Place::CellOrCarry(at) => {
            let (x, z) = sides.position(at);
            format!("refusal {number}: {words}, at cell {at} (x {x}, z {z})")
        }
        _ => refusal.to_string(),
    }
}

/// A refusal of the reader, told with what the record has there.
fn in_record(refusal: Refusal, record: &[u8]) -> String {
    let numbers = Numbers(record);
    let name = |section: usize| if section == CARRY { "carry" } else { SECTIONS[section - 1].0 };
    let told = match refusal.at() {
        Place::Byte(byte) => match numbers.section_from(byte) {
            Some(section) => {
                let rest = record.len().saturating_sub(byte);
                let section = named(section, name(section));
                format!(": {section} begins there and is not whole, {rest} bytes being left")
            }
            None => ": the record should end there, and does not".to_string(),
        },
        Place::Section(section) => match numbers.count(section) {
            Some(3) if section == 1 => {
                " (sides): it is 3, as in a record of the box, for which skw has its other commands"
                    .to_string()
            }
            Some(count) => format!(" ({}): it is {count}", name(section)),
            None => String::new(),
        },
        Place::None => match refusal.number {
            Refusal::SIDES => format!(": its sides are {}", numbers.list(1, " x ")),
            Refusal::SETTING => format!(
                ": its p, gravity and edge are {}, its origin is {}",
                numbers.list(2, ", "),
                numbers.list(3, ", ")
            ),
            _ => String::new(),
        },
        _ => match numbers.side(4).zip(numbers.side(8)) {
            Some((nx, nz)) => return in_flume(refusal, Sides::new(nx, nz)),
            None => String::new(),
        },
    };
    format!("{refusal}{told}")
}
