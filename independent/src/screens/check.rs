//! The screen of `check`: what looks wrong, with the lines as they were typed.

use super::head::{first_line, verdict};
use super::page::Page;
use super::things::{things, Thing};
use super::{clashes, notes, Subject};
use crate::facts::findings::finding::Kind;

/// "Of the blocks, and of the writes of `no-port`, the first 20 are printed".
const MOST_PRINTED: usize = 20;

pub fn check(subject: &Subject) -> Vec<u8> {
    let mut page = Page::default();
    page.line(first_line(subject));
    page.line(verdict(subject));
    print_things(&mut page, subject);
    clashes::print_meant(&mut page, subject);
    notes::print(&mut page, subject);
    page.into_bytes()
}

fn print_things(page: &mut Page, subject: &Subject) {
    let things = things(subject);
    let is_no_port =
        |thing: &Thing| matches!(thing, Thing::Other(finding) if finding.kind == Kind::NoPort);
    let is_block = |thing: &Thing| matches!(thing, Thing::Block(_));
    let [mut blocks, mut writes] = [0, 0];
    for (place, thing) in things.iter().enumerate() {
        let alike = match thing {
            _ if is_block(thing) => &mut blocks,
            _ if is_no_port(thing) => &mut writes,
            _ => &mut 0,
        };
        *alike += 1;
        if *alike <= MOST_PRINTED {
            page.empty_line();
            thing.print(page, subject, place + 1);
            continue;
        }
        let next = things.get(place + 1);
        if !next.is_some_and(|it| {
            is_block(it) == is_block(thing) && is_no_port(it) == is_no_port(thing)
        }) {
            page.empty_line();
            page.line(format!("and {} more like these", *alike - MOST_PRINTED));
        }
    }
}
