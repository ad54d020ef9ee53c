//! The desk's tool over the proved calls: texts and sheets checked with messages
//! for people, run by names, shown as waves and drawings.

// The calls, and what is read from files.
pub mod archive;
pub mod circuit;
pub mod layout;
pub mod places;
pub mod source;
pub mod types;

// Values and runs.
#[cfg(call_possible)]
pub mod fillings;
pub mod patterns;
#[cfg(call_run)]
pub mod signals;
pub mod state;
pub mod stimulus;
pub mod values;

// Pictures.
pub mod drawing;
pub mod graph;
#[cfg(call_run)]
pub mod page;
#[cfg(call_run)]
pub mod vcd;
#[cfg(call_run)]
pub mod waves;
pub mod xml;

// Messages.
pub mod explain;
pub mod message;
pub mod near;
pub mod warnings;
pub mod wording;

// The program.
pub mod arguments;
pub mod command;
pub mod commands;
pub mod completion;
pub mod desk;
pub mod program;
