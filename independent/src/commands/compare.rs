//! The commands `compare`, `compare-scripts`, `compare-answers` and `cases`.

use super::{cannot_print, number, program, Failure};
use independent::compare::cases;
use independent::compare::comparison::{Comparison, Settings};
use std::ffi::OsString;
use std::io::Write;
use std::path::PathBuf;

/// Compares a program with the model: the first difference with its files kept, or the last line.
pub fn run(comparison: &Comparison, name: &OsString, options: &[OsString]) -> Result<(), Failure> {
    let (settings, show_tally) = settings(name, options)?;
    let found = comparison.run(&settings).map_err(|error| {
        let wanted = comparison.program;
        Failure::Work(format!("{error}; give {wanted}"))
    })?;
    if let Some(difference) = found.difference {
        let folder = settings.keep.display();
        let kept = match difference.keep(&settings.keep, settings.seed) {
            Ok(name) => format!("kept as {folder}/{name}.*"),
            Err(error) => format!("not kept, cannot write to {folder}: {error}"),
        };
        return Err(Failure::Work(format!(
            "difference with seed {}, {} {} ({}): {}; {kept}",
            settings.seed, difference.noun, difference.number, difference.kind, difference.what
        )));
    }
    let mut report = String::new();
    if show_tally {
        for point in comparison.points {
            report += &format!("{:>9}  {point}\n", found.coverage.count(point));
        }
    }
    report += &comparison.summary(&found).map_err(Failure::Work)?;
    let _ = writeln!(std::io::stdout(), "{report}");
    Ok(())
}

fn settings(name: &OsString, options: &[OsString]) -> Result<(Settings, bool), Failure> {
    let mut settings = Settings::new(program(name));
    let mut show_tally = false;
    let mut rest = options.iter();
    while let Some(option) = rest.next() {
        let name = option.to_string_lossy();
        if name == "--tally" {
            show_tally = true;
            continue;
        }
        let value = match (name.as_ref(), rest.next()) {
            ("--seed" | "--count" | "--keep", Some(value)) => value,
            _ => {
                let usage = crate::USAGE;
                return Err(Failure::Call(format!("{name} is not understood; {usage}")));
            }
        };
        match name.as_ref() {
            "--seed" => settings.seed = number(value, "the seed")?,
            "--count" => settings.count = number(value, "the count")?,
            _ => settings.keep = PathBuf::from(value),
        }
    }
    Ok((settings, show_tally))
}

pub fn print_cases() -> Result<(), Failure> {
    let written = std::io::stdout().write_all(cases::report().as_bytes());
    written.map_err(cannot_print)
}
