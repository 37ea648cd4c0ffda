//! The command `play`.

use super::{cannot_print, Failure};
use independent::model::player::{play, PlayError, Unwatched};
use std::fs::File;
use std::io::{BufReader, BufWriter, ErrorKind, Write};
use std::path::Path;

pub fn run(path: &Path) -> Result<(), Failure> {
    let cannot_read = |error| {
        let path = path.display();
        Failure::Work(format!("cannot read {path}: {error}; give a trace file"))
    };
    let file = File::open(path).map_err(cannot_read)?;
    let input = BufReader::with_capacity(1 << 16, file);
    let mut output = BufWriter::with_capacity(1 << 16, std::io::stdout().lock());
    let played = play(input, &mut output, &mut Unwatched);
    let flushed = output.flush().map_err(PlayError::Output);
    match played.and_then(|totals| flushed.map(|()| totals)) {
        Ok(totals) => {
            if totals.records == 0 {
                let _ = writeln!(std::io::stderr(), "note: the trace is empty");
            }
            if totals.ended {
                let _ = writeln!(
                    std::io::stderr(),
                    "the run ended at record {}",
                    totals.records
                );
            }
            Ok(())
        }
        Err(PlayError::Input(error)) => Err(cannot_read(error)),
        Err(PlayError::Output(error)) if error.kind() == ErrorKind::BrokenPipe => {
            Err(Failure::Work(String::new())) // whoever reads the output has seen enough
        }
        Err(PlayError::Output(error)) => Err(cannot_print(error)),
    }
}
