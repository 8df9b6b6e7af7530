//! Boxes that are processes of their own, and an air between them that is one more (scripts/radio, docs/radio.md): what the air does to the
//! datagrams that it is sent, what it adds to them, each box once more, a run of all the processes, and a look into their memory.

pub mod air;
pub mod counts;
pub mod memory;
pub mod noise;
pub mod run;
pub mod shadow;
