//! Runs the program under test, with a limit on its time and its output: what it prints goes
//! through pipes that are read up to a limit, and it never outlives its run.

use std::ffi::OsStr;
use std::io::{self, Read, Write};
use std::path::Path;
use std::process::{Child, Command, ExitStatus, Stdio};
use std::sync::mpsc::{self, Receiver};
use std::time::{Duration, Instant};

/// Bytes a program may print beyond what it should before its run is given up.
const SLACK: u64 = 1 << 16;

/// What the program did.
pub struct Run {
    pub ending: Ending,
    pub stdout: Vec<u8>,
    pub stderr: Vec<u8>,
}

pub enum Ending {
    Exited(ExitStatus),
    TookTooLong,
    PrintedTooMuch,
}

/// The program under test, what it is, and how long a run of it may take.
pub struct Program<'a> {
    pub path: &'a Path,
    pub role: &'static str,
    pub time_limit: Duration,
}

/// A program that is running; it is ended when this is dropped.
struct Running(Child);

impl Drop for Running {
    fn drop(&mut self) {
        let _ = self.0.kill();
        let _ = self.0.wait();
    }
}

impl Program<'_> {
    /// One run whose right output has `expected` bytes; the input goes through a pipe.
    pub fn run(
        &self,
        arguments: &[&OsStr],
        input: Option<&[u8]>,
        expected: u64,
    ) -> io::Result<Run> {
        let stdin = input.map_or_else(Stdio::null, |_| Stdio::piped());
        let child = Command::new(self.path)
            .args(arguments)
            .stdin(stdin)
            .stdout(Stdio::piped())
            .stderr(Stdio::piped())
            .spawn()
            .map_err(|error| with_context(error, &format!("run the {}", self.role), self.path))?;
        let deadline = Instant::now() + self.time_limit;
        let mut running = Running(child);
        feed(running.0.stdin.take(), input.unwrap_or_default());
        let most = expected + SLACK;
        let stdout = gather(running.0.stdout.take(), most);
        let stderr = gather(running.0.stderr.take(), SLACK);
        let stdout = stdout.recv_timeout(left(deadline)).ok();
        let stderr = stderr.recv_timeout(left(deadline)).ok();
        let ending = match (&stdout, &stderr) {
            (Some(stdout), _) if stdout.len() as u64 >= most => Ending::PrintedTooMuch,
            (_, Some(stderr)) if stderr.len() as u64 >= SLACK => Ending::PrintedTooMuch,
            (Some(_), Some(_)) => running.wait(deadline)?,
            _ => Ending::TookTooLong,
        };
        Ok(Run {
            ending,
            stdout: stdout.unwrap_or_default(),
            stderr: stderr.unwrap_or_default(),
        })
    }
}

impl Running {
    /// The end of a program that has closed its outputs, which is due at once.
    fn wait(&mut self, deadline: Instant) -> io::Result<Ending> {
        let mut pause = Duration::from_micros(20);
        loop {
            if let Some(status) = self.0.try_wait()? {
                return Ok(Ending::Exited(status));
            }
            if left(deadline).is_zero() {
                return Ok(Ending::TookTooLong);
            }
            std::thread::sleep(pause);
            pause = (pause * 2).min(Duration::from_millis(20));
        }
    }
}

/// Writes the input from a thread of its own; a program need not read all of it.
fn feed(pipe: Option<impl Write + Send + 'static>, input: &[u8]) {
    let input = input.to_vec();
    if let Some(mut pipe) = pipe {
        std::thread::spawn(move || {
            let _ = pipe.write_all(&input);
        });
    }
}

/// Reads a pipe from a thread of its own, up to a limit; then the pipe is closed, which stops its
/// writer.
fn gather(pipe: Option<impl Read + Send + 'static>, most: u64) -> Receiver<Vec<u8>> {
    let (sender, receiver) = mpsc::channel();
    std::thread::spawn(move || {
        let mut bytes = Vec::new();
        if let Some(pipe) = pipe {
            // What was read before an error is compared as it is.
            let _ = pipe.take(most).read_to_end(&mut bytes);
        }
        let _ = sender.send(bytes);
    });
    receiver
}

fn left(deadline: Instant) -> Duration {
    deadline.saturating_duration_since(Instant::now())
}

/// The error with what was tried and on which path.
pub fn with_context(error: io::Error, tried: &str, path: &Path) -> io::Error {
    let text = format!("cannot {tried} {}: {error}", path.display());
    io::Error::new(error.kind(), text)
}
