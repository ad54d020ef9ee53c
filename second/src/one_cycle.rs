//! What comparisons of calls have in common that take a sheet and one cycle of
//! input and fill one slice.

pub mod cases;
pub mod compare;
mod comparison;
pub mod faults;
mod jobs;
pub mod kind;
pub mod tally;
