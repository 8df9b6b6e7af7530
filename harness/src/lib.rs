//! An independent implementation of documents 01 and 02 (jobs 1, 2, 3, 4, 6, 7, 8, 9, 12, 13 and 14) and the tools that compare the Rattle code with it.
//!
//! `reference` is written from the documents alone. Nothing here is proved: it is the other opinion.

pub mod bound;
pub mod boxes;
pub mod calls;
pub mod cases;
pub mod differential;
pub mod echo;
pub mod forbidden;
pub mod generate;
pub mod heard_twice;
pub mod last_packet;
pub mod lent;
#[cfg(feature = "linked")]
pub mod linked;
pub mod maxcsp;
pub mod order;
pub mod plot;
pub mod projections;
pub mod radio;
pub mod random;
pub mod recorded;
pub mod reference;
pub mod replay;
pub mod retest;
pub mod sample;
pub mod slots;
pub mod start;
pub mod tiny;
pub mod trials;
pub mod tuned;
pub mod unary;
