//! The players: both run as programs on the same long trace, with their output discarded.

use super::table::row;
use crate::compare::run::with_context;
use crate::generate::rng::Rng;
use crate::generate::traces::large;
use std::io;
use std::path::{Path, PathBuf};
use std::process::{Command, Stdio};
use std::time::{Duration, Instant};

const RECORDS: u64 = 1_000_000;
const ROUNDS: usize = 11;

/// A temporary trace file, removed when this is dropped.
struct TraceFile(PathBuf);

impl Drop for TraceFile {
    fn drop(&mut self) {
        let _ = std::fs::remove_file(&self.0);
    }
}

impl TraceFile {
    fn new() -> io::Result<TraceFile> {
        let name = format!("independent-bench-{}.trace", std::process::id());
        let trace = TraceFile(std::env::temp_dir().join(name));
        let bytes = large::in_memory(&mut Rng::new(967), RECORDS);
        std::fs::write(&trace.0, bytes)?;
        Ok(trace)
    }
}

/// A program with its arguments up to the trace file.
struct PlayerProgram<'a> {
    program: &'a Path,
    command: &'static str,
}

impl PlayerProgram<'_> {
    fn command(&self, trace: &TraceFile) -> Command {
        let mut command = Command::new(self.program);
        command.arg(self.command);
        command.arg(&trace.0).stdin(Stdio::null());
        command
    }

    /// What it prints; this run also warms everything.
    fn text(&self, trace: &TraceFile) -> io::Result<Vec<u8>> {
        let mut command = self.command(trace);
        let output = command.stderr(Stdio::inherit()).output();
        Ok(output.map_err(|error| self.cannot_run(error))?.stdout)
    }

    fn time(&self, trace: &TraceFile) -> io::Result<Duration> {
        let mut command = self.command(trace);
        let start = Instant::now();
        let status = command.stdout(Stdio::null()).status();
        let time = start.elapsed();
        match status.map_err(|error| self.cannot_run(error))? {
            status if status.success() => Ok(time),
            status => Err(self.cannot_run(io::Error::other(status.to_string()))),
        }
    }

    fn cannot_run(&self, error: io::Error) -> io::Error {
        with_context(error, "run", self.program)
    }
}

/// The row of the two players, in records a second; then what was played.
pub fn report(player: &Path) -> io::Result<String> {
    let trace = TraceFile::new()?;
    let own = std::env::current_exe()?;
    let proved = PlayerProgram {
        program: player,
        command: "play",
    };
    let own = PlayerProgram {
        program: &own,
        command: "play",
    };
    if proved.text(&trace)? != own.text(&trace)? {
        let text = "the players print different texts, so they are not timed: run compare";
        return Ok(format!("{text}\n"));
    }
    let mut least = [Duration::MAX; 2];
    for _ in 0..ROUNDS {
        least[0] = least[0].min(proved.time(&trace)?);
        least[1] = least[1].min(own.time(&trace)?);
    }
    Ok(describe(least.map(|time| time.as_secs_f64())))
}

fn describe([proved, own]: [f64; 2]) -> String {
    let rate = |time: f64| format!("{:.0} /s", RECORDS as f64 / time);
    let row = row(
        "playing, records a second",
        "this package's own player",
        &rate(proved),
        &rate(own),
        &format!("{:.2}", own / proved),
    );
    format!(
        "{row}\n\n\
         Playing: {RECORDS} records, four cameras with lines of up to 640 pixels amid register\n\
         traffic. Each player is a program of its own that reads the file and writes to\n\
         /dev/null; the least of {ROUNDS} rounds. This package's own player is plain code, with\n\
         the checksum by a byte table.\n"
    )
}
