//! What calls on one output leaf, and their comparisons, have in common.

pub mod effort;
pub mod faults;
pub mod judging;
