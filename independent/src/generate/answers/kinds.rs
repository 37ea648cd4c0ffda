//! The kinds of cases there are, and their order.

#[derive(Clone, Copy, Debug, PartialEq, Eq)]
pub enum Kind {
    Sample,
    Empty,
    Cameras,
    Broadcast,
    WrongPage,
    Slips,
    Shared,
    Unmodelled,
    Aliases,
    Merged,
    Again,
    Mixed,
    Any,
    Bursts,
    Far,
    Read,
    Played,
}

/// Most cases of a comparison go round this list.
pub const SCHEDULE: [Kind; 30] = [
    Kind::Cameras,
    Kind::Slips,
    Kind::WrongPage,
    Kind::Mixed,
    Kind::Bursts,
    Kind::Merged,
    Kind::Aliases,
    Kind::Again,
    Kind::Read,
    Kind::Slips,
    Kind::Broadcast,
    Kind::Mixed,
    Kind::Any,
    Kind::Shared,
    Kind::Played,
    Kind::Unmodelled,
    Kind::Slips,
    Kind::Merged,
    Kind::Bursts,
    Kind::Aliases,
    Kind::Mixed,
    Kind::WrongPage,
    Kind::Read,
    Kind::Broadcast,
    Kind::Again,
    Kind::Any,
    Kind::Slips,
    Kind::Played,
    Kind::Mixed,
    Kind::Far,
];

impl Kind {
    pub fn name(self) -> &'static str {
        match self {
            Kind::Sample => "sample",
            Kind::Empty => "empty",
            Kind::Cameras => "cameras",
            Kind::Broadcast => "broadcast",
            Kind::WrongPage => "wrong page",
            Kind::Slips => "typing errors",
            Kind::Shared => "shared registers",
            Kind::Unmodelled => "registers that are not followed",
            Kind::Aliases => "aliases",
            Kind::Merged => "merged lines",
            Kind::Again => "ports set up again",
            Kind::Mixed => "mixed",
            Kind::Any => "any writes",
            Kind::Bursts => "bursts",
            Kind::Far => "far lines",
            Kind::Read => "case of a converter",
            Kind::Played => "trace of a player",
        }
    }
}
