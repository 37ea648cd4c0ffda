//! The timing: the proved functions and the proved player beside fast forms in Rust, in one run on
//! the same inputs. It is no test: it prints what it finds.

mod checksums;
mod headers;
mod lines;
mod measurement;
mod players;
mod table;

use std::io::{self, Write};
use std::path::Path;

/// Prints the header, the table of the functions, and the row of the players.
pub fn run(player: &Path, output: &mut impl Write) -> io::Result<()> {
    writeln!(output, "{}", header())?;
    let players = players::report(player)?;
    let mut measurements = checksums::measurements();
    measurements.extend(lines::measurements());
    measurements.extend(headers::measurements());
    measurement::measure(&mut measurements);
    writeln!(output, "{}", table::heading())?;
    for measurement in &measurements {
        write!(output, "{}", table::rows(measurement))?;
    }
    write!(output, "{players}")
}

fn header() -> String {
    let processor = std::fs::read_to_string("/proc/cpuinfo").unwrap_or_default();
    let processor = processor
        .lines()
        .find_map(|line| line.strip_prefix("model name"))
        .map_or("unknown", |rest| rest.trim_start_matches([':', ' ', '\t']));
    format!(
        "The proved code beside fast forms in Rust, on the same inputs, in one run.\n\
         Processor: {processor}\n\
         Compiler of the forms in Rust: {}, release, {}\n\n\
         A time is that of one call: the least of {} rounds, in which all forms take turns of\n\
         about {} ms. Inputs and buffers are warm, buffers are not cleared between calls, and no\n\
         call waits for the result of the one before. Every form is called, not inlined. The\n\
         ratio is the other form's time by the proved one's: above 1, the proved code is faster.\n",
        env!("RUSTC_VERSION"),
        if cfg!(target_feature = "popcnt") {
            "for newer processors"
        } else {
            "for any x86-64"
        },
        measurement::ROUNDS,
        measurement::TURN.as_millis(),
    )
}
