//! What remains possible, worked out by hand from docs/SHEETS.md.

mod asked;
mod fillings;
mod mistakes;
mod patterns;
mod refusals;
mod values;
