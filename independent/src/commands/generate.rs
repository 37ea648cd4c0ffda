//! The commands `generate` and `samples`.

use super::{cannot_write, number, Failure};
use independent::generate::rng::Rng;
use independent::generate::samples::write_all;
use independent::generate::traces::{self, Kind};
use std::ffi::OsString;
use std::fs::File;
use std::io::{BufWriter, Write};
use std::path::Path;

pub fn samples(folder: &Path) -> Result<(), Failure> {
    write_all(folder).map_err(|error| cannot_write(folder, error))
}

pub fn one(seed: &OsString, kind: &OsString, out: &Path) -> Result<(), Failure> {
    let seed = number(seed, "the seed")?;
    let name = kind.to_string_lossy();
    let Some(kind) = Kind::of_name(&name) else {
        let known = Kind::names().join(", ");
        let text = format!("no kind {name}; the kinds are {known}, and large RECORDS");
        return Err(Failure::Call(text));
    };
    let trace = traces::trace(kind, &mut Rng::new(seed), seed);
    std::fs::write(out, trace).map_err(|error| cannot_write(out, error))
}

pub fn large(seed: &OsString, records: &OsString, out: &Path) -> Result<(), Failure> {
    let mut rng = Rng::new(number(seed, "the seed")?);
    let records = number(records, "the count of records")?;
    let file = File::create(out).map_err(|error| cannot_write(out, error))?;
    let mut output = BufWriter::with_capacity(1 << 16, file);
    let written = traces::large::write(&mut rng, records, &mut output);
    let written = written.and_then(|()| output.flush());
    written.map_err(|error| cannot_write(out, error))
}
