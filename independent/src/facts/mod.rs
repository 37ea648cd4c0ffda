//! The facts behind `show` and `check`, written anew from the text that asks for them and from
//! document 01, over the model. The sentences are quoted where they are followed; where they leave
//! something open, docs/SHOW.md has the decision. Best read in this order.

// What is run: the hub, and the writes with their numbers.
pub mod given;

// Point 2: what a write did. Point 1: the origins. Both are taken down while the writes are run.
pub mod effect;
pub mod origins;
pub mod run;

// Point 3: whether the blocks may be run in any order.
pub mod order;

// Point 4: the end state.
pub mod end_state;

// Point 5: the findings.
pub mod findings;

// For the screen of show: the addresses that a later block took away.
pub mod lost;

// All of it as one object.
pub mod answer;
pub mod object;
