//! Random circuits that keep every rule, as drafts.

pub mod boundary;
pub mod circuits;
pub mod decisions;
pub mod delays;
pub mod expressions;
pub mod labels;
pub mod mixed;
pub mod network;
pub mod patterns;
pub mod small;
pub mod types;
