//! Counts of what was compared, by name, and the quotas that they have to meet.

use std::collections::BTreeMap;

/// Cases of one name: how many were made, and how many count.
#[derive(Clone, Copy, Default)]
struct Count {
    made: u64,
    hit: u64,
}

#[derive(Clone, Default)]
pub struct Tally {
    pub compared: u64,
    counts: BTreeMap<String, Count>,
}

impl Tally {
    fn count(&mut self, name: &str) -> &mut Count {
        if !self.counts.contains_key(name) {
            self.counts.insert(name.to_string(), Count::default());
        }
        self.counts.get_mut(name).unwrap_or_else(|| unreachable!("{name} was inserted"))
    }

    /// So many more that count.
    pub fn add(&mut self, name: &str, cases: u64) {
        let count = self.count(name);
        count.made += cases;
        count.hit += cases;
    }

    /// One more if it holds.
    pub fn add_if(&mut self, name: &str, holds: bool) {
        self.add(name, u64::from(holds));
    }

    /// One more that was made, and that counts where it hit what it aims at.
    pub fn aim(&mut self, name: &str, hit: bool) {
        let count = self.count(name);
        count.made += 1;
        count.hit += u64::from(hit);
    }

    /// How many count.
    pub fn got(&self, name: &str) -> u64 {
        self.counts.get(name).map_or(0, |count| count.hit)
    }

    pub fn merge(&mut self, other: &Tally) {
        self.compared += other.compared;
        for (name, theirs) in &other.counts {
            let mine = self.count(name);
            mine.made += theirs.made;
            mine.hit += theirs.hit;
        }
    }

    /// The counts that no quota is about, a line each.
    pub fn others(&self, quotas: &[Quota]) -> Vec<String> {
        let plain = |name: &str| quotas.iter().all(|quota| quota.name != name);
        let counts = self.counts.iter().filter(|(name, _)| plain(name));
        counts.map(|(name, count)| format!("{name}: {}", count.hit)).collect()
    }
}

/// How many cases there are to be of one name.
pub struct Quota {
    pub name: String,
    pub least: u64,
    /// So many of a hundred that were made have to count.
    pub percent: u64,
}

impl Quota {
    pub fn new(name: impl Into<String>, least: u64) -> Quota {
        Quota { name: name.into(), least, percent: 0 }
    }

    pub fn of_hundred(name: impl Into<String>, least: u64, percent: u64) -> Quota {
        Quota { name: name.into(), least, percent }
    }

    /// The quotas of a table.
    pub fn all(table: &[(&str, u64)]) -> Vec<Quota> {
        table.iter().map(|(name, least)| Quota::new(*name, *least)).collect()
    }

    /// What came of the quota: the line, and what is not met of it.
    pub fn judge(&self, tally: &Tally) -> (String, Option<String>) {
        let Quota { name, least, percent } = self;
        let Count { made, hit } = tally.counts.get(name).copied().unwrap_or_default();
        let line = format!("quota {name}: {hit} of {least}");
        let unmet = if hit < *least {
            Some(format!("{name}: {hit} of {least}"))
        } else if hit * 100 < made * percent {
            Some(format!("{name}: only {hit} of {made} hit what they aim at"))
        } else {
            None
        };
        (line, unmet)
    }
}

/// The name of the count of cases with faults of two codes.
pub fn of_codes(low: u8, high: u8) -> String {
    format!("faults of codes {low} and {high}")
}

/// The name of the count of accepted sheets laid out in an order.
pub fn laid_out(order: &str) -> String {
    format!("accepted sheets laid out {order}")
}

/// The least number of a name in a table.
pub fn least(table: &[(&str, u64)], name: &str) -> u64 {
    table.iter().find(|(n, _)| *n == name).map_or(0, |(_, least)| *least)
}
