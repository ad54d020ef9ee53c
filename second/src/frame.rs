//! The frame of all comparisons: jobs with seeds and threads, slices to lend,
//! counts and quotas, reports, options, and the loop over the mistakes. What is
//! particular to a call stands in `calls`.

pub mod command;
pub mod comparison;
pub mod entry;
pub mod lender;
pub mod memory;
pub mod options;
pub mod plan;
pub mod program;
pub mod report;
pub mod shared_object;
pub mod tally;
#[cfg(test)]
mod tests;
pub mod timing;
pub mod workers;
