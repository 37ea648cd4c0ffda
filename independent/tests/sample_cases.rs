//! The samples as they are stored: the data sheet's scripts and the weighbridge's.

use independent::generate::samples::{write_all, SCRIPTS};
use independent::model::convert::to_trace;
use independent::model::start::Start;
use std::fs;
use std::path::{Path, PathBuf};

fn stored() -> PathBuf {
    Path::new(env!("CARGO_MANIFEST_DIR")).join("../samples")
}

#[test]
fn the_stored_traces_are_those_that_are_written() {
    let folder = Path::new(env!("CARGO_TARGET_TMPDIR")).join("samples");
    fs::create_dir_all(&folder).unwrap();
    write_all(&folder).unwrap();
    let mut names: Vec<String> = ["whole_case", "weighbridge", "wrong_page"]
        .map(String::from)
        .to_vec();
    names.extend(SCRIPTS.map(|(name, _)| format!("datasheet/{name}")));
    for name in names {
        let file = format!("{name}.trace");
        let (written, kept) = (fs::read(folder.join(&file)), fs::read(stored().join(&file)));
        assert_eq!(written.unwrap(), kept.unwrap(), "{name}");
    }
}

#[test]
fn the_data_sheet_has_133_calls_in_ten_blocks() {
    let calls =
        SCRIPTS.map(|(_, text)| (to_trace(0x3D, Start::Board, text).unwrap().len() - 5) / 6);
    assert_eq!(calls, [10, 22, 15, 12, 12, 12, 5, 4, 9, 32]);
    assert_eq!(calls.iter().sum::<usize>(), 133);
    let files = fs::read_dir(stored().join("datasheet")).unwrap();
    let is_script = |path: &PathBuf| path.extension().is_some_and(|ending| ending == "script");
    let scripts = files.map(|file| file.unwrap().path()).filter(is_script);
    assert_eq!(scripts.count(), SCRIPTS.len());
}

#[test]
fn the_scripts_of_the_weighbridges_are_their_set_ups() {
    for name in ["weighbridge", "wrong_page"] {
        let script = fs::read(stored().join(format!("{name}.script"))).unwrap();
        let trace = fs::read(stored().join(format!("{name}.trace"))).unwrap();
        let set_up = to_trace(0x3D, Start::Board, &script).unwrap();
        assert_eq!(set_up.len(), 5 + 21 * 6, "{name}");
        assert!(trace.starts_with(&set_up), "{name}");
        assert_eq!(trace[set_up.len() + 2], 0x03, "then the first question");
    }
}
