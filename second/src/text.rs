//! Sheets as text: a second translation, and the meaning of a text over its
//! names.

pub mod constants;
pub mod generate;
pub mod grammar;
pub mod long;
pub mod naming;
pub mod parser;
pub mod positions;
pub mod prediction;
pub mod reading;
pub mod syntax;
pub mod terms;
pub mod text_meaning;
pub mod tokens;
pub mod translation;
pub mod translator;
