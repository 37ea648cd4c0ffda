//! The commands `show` and `check`: their screens, or with --json the facts of a script or a trace as
//! one object. A refusal stands on standard output as `convert` and the player print it.

use super::convert::{hex_byte, read};
use super::{cannot_print, Failure};
use independent::compare::scripts::named;
use independent::facts::object::object;
use independent::model::convert::{refused_lines, Refused};
use independent::model::start::Start;
use independent::screens::{self, Subject};
use std::ffi::OsString;
use std::io::{self, Write};
use std::path::Path;

/// Status 1 where the file is not taken.
pub fn show(arguments: &[OsString]) -> Result<(), Failure> {
    match answer("show", screens::show, arguments)? {
        Some(_) => Ok(()),
        None => Err(Failure::Work(String::new())),
    }
}

/// Status 0 where nothing looks wrong, 1 where something does, 2 where the file is not taken.
pub fn check(arguments: &[OsString]) -> Result<(), Failure> {
    match answer("check", screens::check, arguments) {
        Ok(Some(is_wrong)) if is_wrong => Err(Failure::Work(String::new())),
        Ok(Some(_)) => Ok(()),
        Ok(None) => Err(Failure::Call(String::new())),
        Err(Failure::Work(words) | Failure::Call(words)) => Err(Failure::Call(words)),
    }
}

/// Prints the answer, and says whether something looks wrong; nothing where the file is refused. It
/// is a script where an address stands before it, else a trace, which has its own start.
fn answer(
    command: &str,
    screen: fn(&Subject) -> Vec<u8>,
    arguments: &[OsString],
) -> Result<Option<bool>, Failure> {
    let is_option = |word: &&OsString| *word == "--json" || *word == "--sheet";
    let options: Vec<&OsString> = arguments.iter().take_while(is_option).collect();
    let json = options.iter().any(|word| *word == "--json");
    let start = match options.iter().any(|word| *word == "--sheet") {
        true => Start::Sheet,
        false => Start::Board,
    };
    let (address, file) = match &arguments[options.len()..] {
        [address, script] => (Some(hex_byte(&address.to_string_lossy())?), script),
        [trace] if start == Start::Board => (None, trace),
        _ => return Err(Failure::Call(crate::USAGE.into())),
    };
    let (name, bytes) = (file.as_encoded_bytes(), read(Path::new(file))?);
    let subject = match address {
        Some(address) => Subject::of_script(name, address, start, &bytes),
        None => Subject::of_trace(name, &bytes),
    };
    let printed = match &subject {
        Ok(subject) if json => format!("{}\n", object(&subject.answer)).into_bytes(),
        Ok(subject) => screen(subject),
        Err(refused) => {
            print_words(command, address.map(|_| &bytes[..]), refused);
            format!("{refused}\n").into_bytes()
        }
    };
    io::stdout().write_all(&printed).map_err(cannot_print)?;
    Ok(subject.ok().map(|subject| subject.answer.is_wrong()))
}

/// What a refusal means; of a script the refused lines are named.
fn print_words(command: &str, script: Option<&[u8]>, refused: &Refused) {
    let words = match (script, refused.line) {
        (Some(text), Some(_)) => named(command, &refused_lines(text)),
        _ => vec!["it is refused".into()],
    };
    for words in words {
        let _ = writeln!(io::stderr(), "{}", words.trim_end_matches('\n'));
    }
}
