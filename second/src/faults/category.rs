//! A category of faults, and sheets with faults of some categories.

use crate::answers::WRONG_TYPE;
use crate::draft::Draft;
use crate::layout::layout;
use crate::random::Random;
use crate::records::{bytes, Record, MAX_RECORDS};

type OnWords = dyn Fn(&mut Vec<Record>, &mut Random) -> bool + Send + Sync;
type OnDraft = dyn Fn(&mut Draft, &mut Random) -> bool + Send + Sync;

/// A fault is put into the records, or into the circuit before its layout.
/// It answers whether it found a place.
pub enum Fault {
    Words(Box<OnWords>),
    Draft(Box<OnDraft>),
}

pub struct Category {
    pub name: String,
    /// The code that a sheet with this fault, and no other, gets.
    pub code: u8,
    pub fault: Fault,
}

impl Category {
    pub fn words(
        code: u8,
        name: impl Into<String>,
        fault: impl Fn(&mut Vec<Record>, &mut Random) -> bool + Send + Sync + 'static,
    ) -> Category {
        Category { name: name.into(), code, fault: Fault::Words(Box::new(fault)) }
    }

    pub fn draft(
        code: u8,
        name: impl Into<String>,
        fault: impl Fn(&mut Draft, &mut Random) -> bool + Send + Sync + 'static,
    ) -> Category {
        Category { name: name.into(), code, fault: Fault::Draft(Box::new(fault)) }
    }
}

/// A sheet with the given faults, those of the circuit first; none if one of
/// them found no place. Types with very many leaves come after all faults that
/// make constants.
pub fn faulty(draft: &Draft, faults: &[&Category], random: &mut Random) -> Option<Vec<u8>> {
    let mut draft = draft.clone();
    let mut faults = faults.to_vec();
    faults.sort_by_key(|category| category.code == WRONG_TYPE);
    for category in &faults {
        if let Fault::Draft(fault) = &category.fault {
            if !fault(&mut draft, random) {
                return None;
            }
        }
    }
    let mut records = layout(&draft, random);
    if records.len() > MAX_RECORDS {
        return None;
    }
    for category in &faults {
        if let Fault::Words(fault) = &category.fault {
            if !fault(&mut records, random) {
                return None;
            }
        }
    }
    Some(bytes(&records))
}

/// A sheet with one fault; the records are a layout of the draft, and serve
/// where the fault is one of words.
pub fn faulty_in(
    draft: &Draft,
    records: &[Record],
    category: &Category,
    random: &mut Random,
) -> Option<Vec<u8>> {
    let Fault::Words(fault) = &category.fault else {
        return faulty(draft, &[category], random);
    };
    let mut records = records.to_vec();
    fault(&mut records, random).then(|| bytes(&records))
}
