//! A second implementation of the library, written from the documents by other means, and what compares the two.

pub mod alone;
pub mod batch;
pub mod calls;
pub mod cases;
pub mod classes;
pub mod families;
pub mod forms;
pub mod lent;
#[cfg(feature = "library")]
pub mod library;
pub mod plain;
pub mod random;
pub mod reference;
pub mod session;
pub mod shrink;
pub mod tally;
pub mod together;
pub mod waiting;
