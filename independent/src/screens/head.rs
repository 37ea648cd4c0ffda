//! What both screens begin with, and the words on how much looks wrong.

use super::names::counted;
use super::things::things;
use super::typed::shown;
use super::Subject;
use crate::facts::findings::finding::Kind;
use crate::model::start::Start;

/// "The file as it was typed [..]; `standard input` for `-`. Then ` on hub ` and the address, then `, as
/// the board starts` or `, as the data sheet starts`."
pub fn first_line(subject: &Subject) -> Vec<u8> {
    let mut line = match subject.name {
        b"-" => b"standard input".to_vec(),
        name => shown(name),
    };
    let start = match subject.answer.start {
        Start::Board => "board",
        Start::Sheet => "data sheet",
    };
    line.extend(format!(" on hub {:02X}, as the {start} starts", subject.answer.hub).bytes());
    line
}

/// How many things look wrong, or that nothing does.
pub fn verdict(subject: &Subject) -> String {
    match things(subject).len() {
        0 if subject.given.writes.is_empty() => {
            "There is no register write: is this the right file?".into()
        }
        0 if subject.nothing_was_set() => {
            "Nothing that this model follows was set up: there is nothing to judge.".into()
        }
        0 if subject.findings(Kind::NotFollowed).next().is_some() => {
            "Nothing looks wrong in what this model follows.".into()
        }
        0 => "Nothing looks wrong.".into(),
        count => {
            let things = counted(count, "thing looks", "things look");
            format!("{things} wrong.")
        }
    }
}
