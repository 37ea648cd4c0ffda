//! The part of show's screen on what is shared, and the lines of check's screen that are meant.

use super::names::{capital, clash};
use super::page::{mark, Page};
use super::things::{named, print_lines};
use super::Subject;
use crate::facts::findings::finding::{Finding, Grade, Kind};

/// "Every `same-channel` and `same-address`, in the order of the object".
fn clashes<'a>(subject: &'a Subject) -> Vec<&'a Finding> {
    let channels = subject.findings(Kind::SameChannel);
    channels
        .chain(subject.findings(Kind::SameAddress))
        .collect()
}

pub fn print(page: &mut Page, subject: &Subject) {
    let clashes = clashes(subject);
    if clashes.is_empty() {
        page.line("Clashes: none");
        return;
    }
    page.line("Clashes");
    for finding in clashes {
        let wrong = finding.grade == Grade::Wrong;
        let meant = if wrong { "" } else { ", perhaps meant" };
        page.line(format!("{}{}{meant}", mark(wrong), clash(finding)));
    }
}

/// "Under this heading, where there are some, the `same-channel` and `same-address` that are meant,
/// with their lines."
pub fn print_meant(page: &mut Page, subject: &Subject) {
    let clashes = clashes(subject).into_iter();
    let meant: Vec<&Finding> = clashes.filter(|it| it.grade == Grade::Meant).collect();
    if meant.is_empty() {
        return;
    }
    page.empty_line();
    page.line("Shared, perhaps as meant");
    for finding in meant {
        let clash = capital(&clash(finding));
        page.line(named(format!("  {clash}"), finding.kind));
        print_lines(page, subject, finding);
    }
}
