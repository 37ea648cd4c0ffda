//! Point 1, the origins: "For every shared register and every register of each port: the number of
//! the last write that reached it (the offset is its own, some bit of it is writable, and for a
//! per-port offset the port was ticked then), or none: the start value stands."

use crate::model::registers::PORTS;

/// A write by its number, and the block that it stands in.
#[derive(Clone, Copy, Debug, PartialEq, Eq)]
pub struct Origin {
    pub number: u64,
    pub block: u64,
}

#[derive(Clone, Debug, PartialEq, Eq)]
pub struct Origins {
    shared: [Option<Origin>; 256],
    pages: [[Option<Origin>; 256]; PORTS],
}

impl Default for Origins {
    fn default() -> Self {
        Origins {
            shared: [None; 256],
            pages: [[None; 256]; PORTS],
        }
    }
}

impl Origins {
    pub fn shared(&self, offset: u8) -> Option<Origin> {
        self.shared[usize::from(offset)]
    }

    pub fn on_port(&self, port: u8, offset: u8) -> Option<Origin> {
        self.pages[usize::from(port)][usize::from(offset)]
    }

    /// Whether some register of the port was ever reached.
    pub fn reached_port(&self, port: u8) -> bool {
        self.pages[usize::from(port)].iter().any(Option::is_some)
    }

    pub fn reach_shared(&mut self, offset: u8, origin: Origin) {
        self.shared[usize::from(offset)] = Some(origin);
    }

    pub fn reach_port(&mut self, port: u8, offset: u8, origin: Origin) {
        self.pages[usize::from(port)][usize::from(offset)] = Some(origin);
    }
}

/// The numbers, rising, each once; where there is no origin there is no number.
pub fn lines(origins: impl IntoIterator<Item = Option<Origin>>) -> Vec<u64> {
    let numbers = origins.into_iter().flatten().map(|origin| origin.number);
    let mut numbers: Vec<u64> = numbers.collect();
    numbers.sort_unstable();
    numbers.dedup();
    numbers
}

/// "where all of these have one and the same line as origin"; a register with its start value has
/// no line, so then they have not.
pub fn one_and_the_same_line(origins: &[Option<Origin>]) -> bool {
    let number = |origin: &Option<Origin>| origin.map(|origin| origin.number);
    let first = origins.first().and_then(number);
    first.is_some() && origins.iter().all(|origin| number(origin) == first)
}
