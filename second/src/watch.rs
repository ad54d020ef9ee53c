//! What is noted of a run's feedbacks while they settle.

use crate::values::{at_or_below, Value};

pub struct Watch {
    /// The greatest number of values of a type that are all tried; 0: none.
    pub limit: usize,
    /// The most applications that led to a feedback's value.
    pub most: usize,
    /// How many times all values of a feedback's type were tried.
    pub tried: u64,
    /// Whether some feedback had a fixed point other than its value.
    pub others: bool,
    /// Whether some feedback's value was not the least of its fixed points.
    pub not_least: bool,
}

impl Watch {
    pub fn nothing() -> Watch {
        Watch::of_types_up_to(0)
    }

    pub fn of_types_up_to(limit: usize) -> Watch {
        Watch { limit, most: 0, tried: 0, others: false, not_least: false }
    }

    /// Takes note of all fixed points of one feedback, and of its value.
    pub fn note(&mut self, value: &Value, fixed_points: &[Value]) {
        self.tried += 1;
        self.others |= fixed_points.len() > 1;
        let least = fixed_points.contains(value)
            && fixed_points.iter().all(|other| at_or_below(value, other));
        self.not_least |= !least;
    }
}
