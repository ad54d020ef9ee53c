//! Faults put into sheets that keep every rule: one category for each
//! sentence of the rules, and each way to break it.

pub mod category;
mod header;
mod limits;
mod named_once;
mod order;
mod patterns;
mod picks;
mod sharing;
mod typing;
mod words;

use category::Category;

/// All categories of faults.
pub fn categories() -> Vec<Category> {
    let mut all = header::categories();
    all.extend(words::categories());
    all.extend(named_once::categories());
    all.extend(sharing::categories());
    all.extend(limits::categories());
    all.extend(typing::categories());
    all.extend(patterns::categories());
    all.extend(order::categories());
    all
}
