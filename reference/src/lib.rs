//! A second implementation of both halls, written from docs/ alone, in the plainest way: sets, maps and lists. It shares no code with the
//! proved crates, so that the compiled library can be compared with it. `page::card_hall` and `page::slip_hall` are the two functions;
//! the other modules make submissions, watch the promises while they run, and shrink what differs. docs/COMPARISON.md tells how it is used.

pub mod author;
pub mod call;
pub mod compare;
pub mod frame;
pub mod generate;
pub mod hall;
pub mod misreading;
pub mod noise;
pub mod page;
pub mod pairs;
pub mod papers;
pub mod plan;
pub mod promises;
pub mod random;
pub mod ready;
pub mod rules;
pub mod shrink;
