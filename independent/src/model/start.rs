//! The two ways a hub starts (L5): "Our boot code clears the largest frame number, so frames carry 0
//! until a script sets it. Start so unless asked."

#[derive(Clone, Copy, Debug, PartialEq, Eq)]
pub enum Start {
    /// As the board's boot code leaves the chip.
    Board,
    /// The data sheet's reset.
    Sheet,
}

pub const STARTS: [Start; 2] = [Start::Board, Start::Sheet];

impl Start {
    pub fn name(self) -> &'static str {
        match self {
            Start::Board => "board",
            Start::Sheet => "sheet",
        }
    }

    pub fn of_name(name: &str) -> Option<Start> {
        STARTS.into_iter().find(|start| start.name() == name)
    }
}
