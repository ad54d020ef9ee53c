//! Texts: answers, records and outputs worked out by hand from docs/SHEETS.md.

mod expected;
mod generate;
mod grammar;
mod naming;
mod text_meaning;
mod translation;
