//! Random inputs, for the vectors and for the comparison. They are no part of
//! the second implementation, and share its limits only.
//!
//! Whoever draws says which kinds of an input there are: each stands in a
//! table as often as it is to be drawn.

pub mod boxes;
pub mod lists;
pub mod random;
pub mod sheets;
