// Records in and out.

use skwarzyna::{Grid, Record, Refusal};

use crate::failure::Failure;
use crate::files::{Input, Output};
use crate::told;

/// The record that an input holds, and its bytes.
pub fn read(input: &Input) -> Result<(Record, Vec<u8>), Failure> {
    let bytes = input.bytes()?;
    let record = Grid::read(&bytes);
    let record = record.map_err(|refusal| {
        Failure::Refused(format!("{}: {}", input.name(), told::in_record(refusal, &bytes)))
    })?;
    Ok((record, bytes))
}

/// The bytes of a record.
pub fn bytes(record: &Record) -> Result<Vec<u8>, Failure> {
    let bytes = record.grid.write(record.settings, record.site);
    bytes.map_err(|refusal| refused(record, refusal))
}

pub fn write(record: &Record, output: &Output) -> Result<(), Failure> {
    output.put(&bytes(record)?)
}

/// What the library refused of a record that was read.
pub fn refused(record: &Record, refusal: Refusal) -> Failure {
    Failure::Refused(told::in_grid(refusal, record.grid.sides()))
}
