//! A second implementation of the type check, of the run and of the other calls,
//! generators of sheets and texts, and the comparison of the calls with those
//! of an archive. The unit tests need no archive: what calls it is not part of
//! them.

// The check.
pub mod answers;
pub mod records;
pub mod structure;
pub mod typing;
pub mod verdict;

// The run.
pub mod accepted;
pub mod evaluator;
pub mod labels;
pub mod listing;
pub mod matching;
pub mod order;
pub mod printout;
pub mod rule;
pub mod simulator;
pub mod stepper;
pub mod stimulus;
pub mod values;
pub mod watch;

// Texts.
pub mod text;

// Sheets.
pub mod draft;
pub mod faults;
pub mod fuzz;
pub mod generate;
pub mod layout;
pub mod random;
pub mod samples;
pub mod shapes;
pub mod survey;

// The calls, and what their comparisons have in common.
#[cfg(feature = "archive")]
pub mod calls;
#[cfg(feature = "archive")]
pub mod frame;
#[cfg(feature = "archive")]
pub mod one_cycle;
pub mod one_leaf;

#[cfg(test)]
mod generate_tests;
#[cfg(test)]
mod labels_tests;
#[cfg(test)]
mod order_tests;
#[cfg(test)]
mod printout_tests;
#[cfg(test)]
mod rule_tests;
#[cfg(test)]
mod sharing_tests;
#[cfg(test)]
mod simulator_tests;
#[cfg(test)]
mod stepper_tests;
#[cfg(test)]
mod text_tests;
#[cfg(test)]
mod typing_tests;
#[cfg(test)]
mod verdict_tests;
