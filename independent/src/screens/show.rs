//! The screen of `show`: where pictures leave, and whom addresses reach.

use super::head::{first_line, verdict};
use super::names::counted;
use super::page::Page;
use super::things::things;
use super::{addresses, clashes, numbers, pictures, Subject};
use crate::facts::findings::finding::Kind;

pub fn show(subject: &Subject) -> Vec<u8> {
    let mut page = Page::default();
    page.line(first_line(subject));
    page.line(second_line(subject));
    page.empty_line();
    pictures::print(&mut page, subject);
    page.empty_line();
    addresses::print(&mut page, subject);
    page.empty_line();
    clashes::print(&mut page, subject);
    page.empty_line();
    if let Some(order) = order(subject) {
        page.line(order);
        page.empty_line();
    }
    print_unsaid(&mut page, subject);
    page.empty_line();
    page.line(last_line(subject));
    page.into_bytes()
}

fn second_line(subject: &Subject) -> String {
    let writes = subject.given.writes.len();
    if writes == 0 {
        return "no register write: the hub is as it starts".into();
    }
    let mut line = counted(writes, "register write", "register writes");
    if subject.nothing_was_set() {
        return line + ", and none sets up anything that this model follows";
    }
    let unfollowed = subject.findings(Kind::NotFollowed).count();
    let no_port = subject.findings(Kind::NoPort).count();
    if unfollowed == 0 && no_port == 0 {
        line += ", all followed";
    }
    if unfollowed > 0 {
        line += &format!(", {unfollowed} not followed by this model");
    }
    if no_port > 0 {
        line += &format!(", {no_port} with no port selected");
    }
    line
}

fn order(subject: &Subject) -> Option<String> {
    if !subject.answer.any_order {
        let noun = subject.noun();
        return Some(format!(
            "The order of the {noun}s may matter; check tells why."
        ));
    }
    let alike = match subject.findings(Kind::NotFollowed).next() {
        None => "The setup blocks may be run in any order: they end alike.",
        Some(_) => "The setup blocks may be run in any order, in what this model follows.",
    };
    (subject.selections() >= 2).then(|| alike.into())
}

/// What the model cannot say.
fn print_unsaid(page: &mut Page, subject: &Subject) {
    page.line("What this model cannot say");
    page.line("  whether an output is switched on (register 33)");
    page.line("  which pictures a camera sends, RAW10 or RAW12");
    page.line("  which camera is plugged into which port");
    let unfollowed = subject.numbers(Kind::NotFollowed);
    if !unfollowed.is_empty() {
        let before = "  what it does not follow: ";
        page.lines(numbers::long(before, subject.noun(), &unfollowed));
    }
}

fn last_line(subject: &Subject) -> String {
    let verdict = verdict(subject);
    if things(subject).is_empty() {
        return verdict;
    }
    verdict + " To see which, run check in place of show."
}
