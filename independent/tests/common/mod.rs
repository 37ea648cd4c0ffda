//! Programs under test that are shell scripts around the independent program itself.

use independent::compare::comparison::Settings;
use std::fs;
use std::os::unix::fs::PermissionsExt;
use std::path::{Path, PathBuf};
use std::sync::{Mutex, MutexGuard, PoisonError};
use std::time::Duration;

const OWN: &str = env!("CARGO_BIN_EXE_independent");

/// One test at a time: a script cannot be run while a process just started still holds it.
static TURN: Mutex<()> = Mutex::new(());

/// A folder of this test, with the program under test in it.
pub struct TestFolder {
    pub path: PathBuf,
    _turn: MutexGuard<'static, ()>,
}

impl TestFolder {
    pub fn new(name: &str) -> TestFolder {
        let turn = TURN.lock().unwrap_or_else(PoisonError::into_inner);
        let path = Path::new(env!("CARGO_TARGET_TMPDIR")).join(name);
        let _ = fs::remove_dir_all(&path);
        fs::create_dir_all(&path).unwrap();
        TestFolder { path, _turn: turn }
    }

    /// A comparison of so many cases with the script; OWN in it is the independent program.
    pub fn settings(&self, script: &str, count: u64) -> Settings {
        let program = self.path.join("program.sh");
        let script = script.replace("OWN", OWN);
        fs::write(&program, format!("#!/bin/sh\n{script}\n")).unwrap();
        fs::set_permissions(&program, fs::Permissions::from_mode(0o755)).unwrap();
        let mut settings = Settings::new(program);
        settings.count = count;
        settings.keep = self.path.join("kept");
        settings.time_limit = Duration::from_secs(20);
        settings
    }
}
