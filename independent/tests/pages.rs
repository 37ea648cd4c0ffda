//! The pages that a reader checks things by, held to the repository: the example of docs/TRACE.md is
//! the sample, and each claim of docs/PROVED.md stands in the file that the page names and is proved.

use std::fs;
use std::path::{Path, PathBuf};

fn root() -> PathBuf {
    Path::new(env!("CARGO_MANIFEST_DIR")).join("..")
}

fn text(file: &str) -> String {
    fs::read_to_string(root().join(file)).unwrap()
}

/// The blocks of a page between lines of three backquotes.
fn blocks(page: &str) -> Vec<Vec<&str>> {
    page.split("```\n")
        .skip(1)
        .step_by(2)
        .map(|block| block.lines().collect())
        .collect()
}

/// The bytes at the start of a line, up to its words.
fn bytes(line: &str) -> Vec<u8> {
    line.split("  ")
        .next()
        .unwrap()
        .split(' ')
        .map(|byte| u8::from_str_radix(byte, 16).unwrap())
        .collect()
}

#[test]
fn the_example_of_a_trace_is_the_sample() {
    let page = text("docs/TRACE.md");
    let blocks = blocks(&page);
    assert_eq!(blocks.len(), 2);
    let trace: Vec<u8> = blocks[0].iter().flat_map(|line| bytes(line)).collect();
    let sample = fs::read(root().join("samples/whole_case.trace")).unwrap();
    assert_eq!(trace, sample);
    let printed = text("samples/whole_case.txt");
    assert_eq!(blocks[1], printed.lines().collect::<Vec<&str>>());
}

/// The files of a folder and of those in it.
fn files(folder: &Path) -> Vec<PathBuf> {
    let mut found = Vec::new();
    for entry in fs::read_dir(folder).unwrap() {
        let path = entry.unwrap().path();
        if path.is_dir() {
            found.extend(files(&path));
        } else {
            found.push(path);
        }
    }
    found
}

/// The claims of the page that have a name: name, crate and file.
fn claims(page: &str) -> Vec<(String, String, String)> {
    let mut claims = Vec::new();
    for line in page.lines().filter(|line| line.starts_with("| ")) {
        let fields: Vec<&str> = line.split(" | ").collect();
        let quoted = |field: &str| {
            let inner = field.trim_end_matches(" |").strip_prefix('`')?;
            inner.strip_suffix('`').map(str::to_string)
        };
        if let (Some(name), Some(place)) = (quoted(fields[1]), quoted(fields[2])) {
            let (krate, file) = place.split_once('/').unwrap();
            claims.push((name, krate.to_string(), file.to_string()));
        }
    }
    claims
}

#[test]
fn every_claim_stands_where_the_page_says_and_is_proved() {
    let claims = claims(&text("docs/PROVED.md"));
    assert!(claims.len() > 20);
    for (name, krate, file) in claims {
        let definitions = text(&format!("crates/{krate}/specs/{file}.antt"));
        assert!(
            definitions.contains(&format!("pub {name} :"))
                || definitions.contains(&format!("pub record {name} ")),
            "{name} does not stand in {krate}/specs/{file}.antt"
        );
        let proof = format!(" : {name}\n");
        assert!(
            files(&root().join(format!("crates/{krate}/proofs")))
                .iter()
                .any(|path| fs::read_to_string(path).unwrap().contains(&proof)),
            "{name} has no proof in crates/{krate}/proofs"
        );
    }
}
