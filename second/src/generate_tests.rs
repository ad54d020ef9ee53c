//! The generators keep the rules, or break the one they aim at.

use crate::calls::checks::mistakes::{self, MISTAKES};
use crate::faults::categories;
use crate::faults::category::faulty;
use crate::fuzz;
use crate::generate::boundary::{deepen, nest, widen};
use crate::generate::circuits::{circuit, circuit_of_records};
use crate::layout::{layout, sheet};
use crate::random::Random;
use crate::records::{bytes, read};
use crate::shapes;
use crate::verdict::check;

#[test]
fn circuits_are_accepted() {
    let mut random = Random::new(11);
    for _ in 0..3000 {
        let sheet = sheet(&circuit(&mut random), &mut random);
        assert_eq!(check(&sheet).code, 0, "{:?}", read(&sheet));
    }
}

#[test]
fn layouts_differ() {
    let mut random = Random::new(12);
    let draft = circuit_of_records(60, &mut random);
    let one = layout(&draft, &mut random);
    assert!((0..20).any(|_| layout(&draft, &mut random) != one));
}

#[test]
fn limits_are_reached() {
    let mut random = Random::new(13);
    for (records, code) in [(4095, 0), (4096, 0), (4097, 1)] {
        let draft = circuit_of_records(records, &mut random);
        let sheet = sheet(&draft, &mut random);
        assert_eq!((sheet.len(), check(&sheet).code), (records * 12, code));
    }
    for over in [false, true] {
        let extra = usize::from(over);
        for _ in 0..200 {
            let draft = circuit_of_records(100, &mut random);
            let (mut deep, mut nested, mut wide) = (draft.clone(), draft.clone(), draft);
            if deepen(&mut deep, 64 + extra, &mut random) {
                assert_eq!(check(&sheet(&deep, &mut random)).code, 6 * u8::from(over));
            }
            if nest(&mut nested, 3 + extra, &mut random) {
                assert_eq!(check(&sheet(&nested, &mut random)).code, 6 * u8::from(over));
            }
            widen(&mut wide, 64 + extra, &mut random);
            assert_eq!(check(&sheet(&wide, &mut random)).code, 5 * u8::from(over));
        }
    }
}

#[test]
fn faults_hit_their_code() {
    let categories = categories();
    let mut hits = vec![(0, 0); categories.len()];
    let mut random = Random::new(14);
    for _ in 0..60 {
        let draft = circuit(&mut random);
        for (category, hits) in categories.iter().zip(&mut hits) {
            if let Some(sheet) = faulty(&draft, &[category], &mut random) {
                hits.0 += 1;
                hits.1 += usize::from(check(&sheet).code == category.code);
            }
        }
    }
    for (category, (made, hit)) in categories.iter().zip(hits) {
        assert!(hit > 0 && hit * 10 >= made * 8, "{}: {hit} of {made}", category.name);
    }
}

#[test]
fn any_bytes_have_a_verdict() {
    let mut random = Random::new(15);
    for _ in 0..1000 {
        let length = random.below(600);
        let any = fuzz::random_bytes(length, &mut random);
        let mut records = layout(&circuit(&mut random), &mut random);
        fuzz::change_words(&mut records, &mut random);
        let strewn = bytes(&fuzz::random_records(&mut random));
        for sheet in [any, bytes(&records), strewn] {
            for (_, mistake) in MISTAKES {
                assert!(mistakes::check(&sheet, Some(mistake)).code <= 7);
            }
        }
    }
}

#[test]
fn named_sheets_have_their_verdicts() {
    for (name, make) in shapes::LARGE {
        let sheet = make();
        let code = match name {
            "pair-types-repeated" | "doubled-types" => 5,
            "one-leaf-chain" | "deep-pattern" => 7,
            _ => 0,
        };
        assert_eq!((sheet.len(), check(&sheet).code), (49_152, code), "{name}");
    }
    assert!(shapes::named("none").is_none());
    assert!(mistakes::named("none").is_none());
}
