//! Parts shared by the test files; each file uses some of them.
//!
//! Every call on the core goes through [`core::Core`], whose lent buffers lie
//! between canaries. [`pair::Pair`] makes each call on the core and on the
//! model and compares all that they leave; [`station::Station`] is the same for
//! a few calls by hand.
#![allow(dead_code)]

pub mod agreement;
pub mod attempt;
pub mod built;
pub mod closing;
pub mod core;
pub mod forge;
pub mod full;
pub mod guarded;
pub mod large;
pub mod pair;
pub mod random;
pub mod recogniser;
pub mod roles;
pub mod runs;
pub mod saved;
pub mod stamps;
pub mod station;
pub mod tables;
pub mod tally;
