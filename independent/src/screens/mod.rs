//! The screens of `show` and `check`: plain text for a clerk, by docs/SHOW.md, whose sentences are
//! quoted where they are followed. Decision 82 says how far they are a second opinion.

mod addresses;
mod check;
mod clashes;
mod head;
mod names;
mod notes;
mod numbers;
mod page;
mod pictures;
mod replaced;
mod show;
mod things;
mod typed;

pub use check::check;
pub use show::show;
pub use things::{things, Thing};

use crate::facts::answer::Answer;
use crate::facts::findings::finding::{Finding, Kind};
use crate::facts::given::{of_script, of_trace, Given};
use crate::facts::run::{run, Run};
use crate::model::convert::{pieces, Refused};
use crate::model::registers::FPD3_PORT_SEL;
use crate::model::start::Start;

/// What a screen is about: the file's name as it was typed, and the facts.
pub struct Subject<'a> {
    pub name: &'a [u8],
    /// The lines of a script, which has them as they were typed; a trace has records.
    pub typed: Option<Vec<&'a [u8]>>,
    pub given: Given,
    pub run: Run,
    pub answer: Answer,
}

impl<'a> Subject<'a> {
    pub fn of_script(
        name: &'a [u8],
        address: u8,
        start: Start,
        text: &'a [u8],
    ) -> Result<Subject<'a>, Refused> {
        let typed = Some(pieces(text).collect());
        Subject::of(name, typed, of_script(address, start, text)?)
    }

    pub fn of_trace(name: &'a [u8], trace: &[u8]) -> Result<Subject<'a>, Refused> {
        Subject::of(name, None, of_trace(trace)?)
    }

    fn of(
        name: &'a [u8],
        typed: Option<Vec<&'a [u8]>>,
        given: Given,
    ) -> Result<Subject<'a>, Refused> {
        let run = run(&given)?;
        Ok(Subject {
            name,
            typed,
            answer: Answer::of_run(&given, &run),
            given,
            run,
        })
    }

    /// What the numbers count.
    fn noun(&self) -> &'static str {
        match self.typed {
            Some(_) => "line",
            None => "record",
        }
    }

    fn findings(&self, kind: Kind) -> impl Iterator<Item = &Finding> {
        let all = self.answer.findings.iter();
        all.filter(move |finding| finding.kind == kind)
    }

    /// The numbers of the writes at which this kind is found, in their order, one for each write.
    fn numbers(&self, kind: Kind) -> Vec<u64> {
        let last = |finding: &Finding| finding.lines.last().copied();
        self.findings(kind).filter_map(last).collect()
    }

    /// How many writes select ports.
    fn selections(&self) -> usize {
        let writes = self.given.writes.iter();
        writes.filter(|write| write.offset == FPD3_PORT_SEL).count()
    }

    /// "these two and the writes to 4C are all there are"
    fn nothing_was_set(&self) -> bool {
        let without =
            self.findings(Kind::NotFollowed).count() + self.findings(Kind::NoPort).count();
        without + self.selections() == self.given.writes.len()
    }
}
