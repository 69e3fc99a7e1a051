//! Scanner sheets in ordinary Rust: reading, writing, judging a plan, picking the better of two
//! plans and searching for the shortest one.
//!
//! It follows the scope alone and shares no code with the proved crates, so that the two can be
//! run on the same input and compared.

pub mod better;
pub mod compare;
pub mod examples;
pub mod judge;
#[cfg(proved)]
pub mod measure;
pub mod naive;
pub mod printing;
#[cfg(proved)]
pub mod proved;
pub mod random;
pub mod search;
pub mod sheet;
