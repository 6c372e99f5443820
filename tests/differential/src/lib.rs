//! The makers of cases and the comparison. It is a library so that the same cases can be put to other programs.

mod capture;
pub mod cases;
mod causes;
mod checks;
pub mod compare;
mod damage;
mod exchange;
mod frame;
pub mod groups;
mod identity;
mod layout;
mod message;
mod offer;
mod policy;
pub mod programs;
mod random;
mod repeats;
mod sequence;
mod tree;
mod wild;
pub mod words;

/// The seed of the ordinary run.
pub const DEFAULT_SEED: u64 = 36_968;
