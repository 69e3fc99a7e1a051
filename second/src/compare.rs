//! The comparison of this program with the proved archive: the same calls to both, and a look at
//! every answer and at the whole of every lent buffer.

pub mod call;
pub mod damage;
pub mod lent;
pub mod maker;
pub mod plans;
pub mod report;
pub mod rooms;
pub mod run;
pub mod sheets;
pub mod shrink;
pub mod side;
pub mod simpler;
pub mod tally;
