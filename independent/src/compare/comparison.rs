//! What the comparisons share: their settings, the numbered cases of a seed done by two workers in
//! a temporary folder until the first difference, and what was found.

use super::coverage::Coverage;
use super::difference::{earlier, Difference};
use super::run::with_context;
use std::fs;
use std::io;
use std::path::{Path, PathBuf};
use std::sync::atomic::{AtomicBool, AtomicU64, Ordering};
use std::sync::{Mutex, MutexGuard, PoisonError};
use std::time::Duration;

const DEFAULT_SEED: u64 = 964;
const DEFAULT_COUNT: u64 = 4000;
const DEFAULT_KEEP: &str = "target/differences";
const DEFAULT_TIME_LIMIT: Duration = Duration::from_secs(120);
const WORKERS: usize = 2;
const PROGRESS_EVERY: u64 = 500;

pub struct Settings {
    pub program: PathBuf,
    pub seed: u64,
    pub count: u64,
    pub keep: PathBuf,
    /// The longest a program may take for one case.
    pub time_limit: Duration,
}

impl Settings {
    pub fn new(program: PathBuf) -> Settings {
        Settings {
            program,
            seed: DEFAULT_SEED,
            count: DEFAULT_COUNT,
            keep: PathBuf::from(DEFAULT_KEEP),
            time_limit: DEFAULT_TIME_LIMIT,
        }
    }
}

/// The comparison of one kind of program with the model.
pub struct Comparison {
    /// What the program must be, for one that cannot be run.
    pub program: &'static str,
    /// What the numbered cases are called.
    pub cases: &'static str,
    /// The points that have to be reached, and the refusals that are among them.
    pub points: &'static [&'static str],
    pub refusals: &'static str,
    /// Does the case of a number, in a folder that nobody else uses meanwhile.
    pub compare_one: fn(&Settings, &Path, u64) -> io::Result<Findings>,
    /// How much was compared, in short and in full.
    pub compared: fn(&Findings) -> String,
    pub compared_in_full: fn(&Findings) -> String,
}

/// What one case or many gave.
#[derive(Default)]
pub struct Findings {
    pub texts: u64,
    pub traces: u64,
    pub records: u64,
    pub coverage: Coverage,
    pub difference: Option<Difference>,
}

impl Findings {
    /// Joins what other cases gave; of two differences the earlier one stays.
    fn add(&mut self, other: Findings) {
        self.texts += other.texts;
        self.traces += other.traces;
        self.records += other.records;
        self.coverage.add(&other.coverage);
        self.difference = earlier(self.difference.take(), other.difference);
    }
}

impl Comparison {
    /// Compares the numbered cases, in a temporary folder that is removed again.
    pub fn run(&self, settings: &Settings) -> io::Result<Findings> {
        let folder = new_folder()?;
        let work = Work {
            comparison: self,
            settings,
            next: AtomicU64::new(0),
            stop: AtomicBool::new(false),
            state: Mutex::default(),
        };
        let found = work.all(&folder);
        let _ = fs::remove_dir_all(&folder);
        found
    }

    /// The last line of a comparison without differences, or what it left out.
    pub fn summary(&self, found: &Findings) -> Result<String, String> {
        let all = self.points.len();
        let missing = found.coverage.missing(self.points);
        if missing.is_empty() {
            let (compared, refusals) = ((self.compared_in_full)(found), self.refusals);
            return Ok(format!(
                "{compared}, {refusals} and all {all} points seen, 0 differences"
            ));
        }
        Err(format!(
            "{} without a difference, but too few: {} of {all} points not reached ({}); raise \
             --count",
            (self.compared)(found),
            missing.len(),
            missing.join(", ")
        ))
    }
}

/// A folder nobody else uses, in the system's place for temporary files.
fn new_folder() -> io::Result<PathBuf> {
    let (place, process) = (std::env::temp_dir(), std::process::id());
    let mut attempt = 0;
    loop {
        let folder = place.join(format!("independent-{process}-{attempt}"));
        match fs::create_dir(&folder) {
            Ok(()) => return Ok(folder),
            Err(error) if error.kind() == io::ErrorKind::AlreadyExists => attempt += 1,
            Err(error) => return Err(with_context(error, "make", &folder)),
        }
    }
}

struct Work<'a> {
    comparison: &'a Comparison,
    settings: &'a Settings,
    next: AtomicU64,
    stop: AtomicBool,
    state: Mutex<State>,
}

#[derive(Default)]
struct State {
    done: u64,
    found: Findings,
    error: Option<io::Error>,
}

impl Work<'_> {
    fn all(self, folder: &Path) -> io::Result<Findings> {
        let folders: Vec<PathBuf> = (0..WORKERS)
            .map(|worker| folder.join(worker.to_string()))
            .collect();
        folders.iter().try_for_each(fs::create_dir)?;
        std::thread::scope(|scope| {
            for folder in &folders {
                scope.spawn(|| self.worker(folder));
            }
        });
        let state = self.state.into_inner();
        let state = state.unwrap_or_else(PoisonError::into_inner);
        state.error.map_or(Ok(state.found), Err)
    }

    /// Numbers are handed out rising and each one taken is finished, so the difference with the
    /// lowest number is found whichever worker is faster.
    fn worker(&self, folder: &Path) {
        while !self.stop.load(Ordering::SeqCst) {
            let number = self.next.fetch_add(1, Ordering::SeqCst);
            if number >= self.settings.count {
                return;
            }
            match (self.comparison.compare_one)(self.settings, folder, number) {
                Ok(found) => self.add(found),
                Err(error) => {
                    self.stop.store(true, Ordering::SeqCst);
                    self.state().error = Some(error);
                }
            }
        }
    }

    fn state(&self) -> MutexGuard<'_, State> {
        let locked = self.state.lock();
        locked.unwrap_or_else(PoisonError::into_inner)
    }

    fn add(&self, found: Findings) {
        let differs = found.difference.is_some();
        let mut state = self.state();
        state.done += 1;
        state.found.add(found);
        if differs {
            self.stop.store(true, Ordering::SeqCst);
        } else if state.done.is_multiple_of(PROGRESS_EVERY) {
            let (done, count, cases) = (state.done, self.settings.count, self.comparison.cases);
            eprintln!("{done} of {count} {cases} compared");
        }
    }
}
