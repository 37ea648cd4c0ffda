//! Point 5, the findings, "each with its lines and ports. 'Every finding is there and nothing else
//! is' is a theorem for each kind."

pub mod at_writes;
pub mod clashes;
pub mod finding;
pub mod forwarded;
pub mod on_order;

use super::given::Given;
use super::run::Run;
use finding::Finding;

/// All findings, by kind in the order of `Kind`; of one kind, in the order of the writes and of the
/// ports, or by format, output and channel, or by address.
pub fn all(given: &Given, run: &Run) -> Vec<Finding> {
    let mut all = at_writes::all(run);
    all.extend(on_order::all(given));
    all.extend(clashes::same_channel(run));
    all.extend(clashes::same_address(run));
    all.extend(forwarded::not_set_up(run));
    all.extend(forwarded::no_address(run));
    all.sort_by_key(|finding| finding.kind); // which keeps the order within a kind
    all
}
