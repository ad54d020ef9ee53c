//! One text, and how both translations are compared on it, and the run of an
//! accepted sheet with the meaning of the text.

use super::archive;
use super::features::features;
use super::mistakes::translate;
use super::tally::{self, LEAST_SHEET};
use crate::accepted::Circuit;
use crate::answers::{Answer, ACCEPTED, WRONG_NAME, WRONG_TEXT};
use crate::calls::runs::archive::run as run_of_archive;
use crate::frame::comparison::{self, Comparer, Ended, Given, Halt, Wrote};
use crate::frame::report::{self, hex, Shown};
use crate::random::Random;
use crate::rule::IN_FORCE;
use crate::stimulus;
use crate::text::generate::faults::Category;
use crate::text::text_meaning::outputs;
use crate::text::translator::{syntax, Outcome};

/// The comparison of the translations.
pub struct Texts {
    pub categories: Vec<Category>,
}

/// A call to compare.
#[derive(Clone)]
pub struct Case {
    pub source: String,
    pub text: Vec<u8>,
    pub slice_length: usize,
}

impl comparison::Case for Case {
    const FILLED: &'static [&'static str] = &["sheet"];

    fn source(&self) -> &str {
        &self.source
    }

    fn read(&self) -> Vec<(&'static str, Shown, &[u8])> {
        vec![("text", Shown::Text, &self.text)]
    }

    fn lengths(&self) -> Vec<usize> {
        vec![self.slice_length]
    }

    fn archive(slices: &mut [&mut [u8]]) -> u64 {
        let [text, sheet] = slices else { unreachable!("two slices") };
        archive::translate(text, sheet)
    }
}

impl Comparer<'_, Texts> {
    /// Compares both translations on a call; hands back the outcome.
    pub fn translations(&mut self, case: &Case) -> Result<Outcome, Halt> {
        let outcome = translate(&case.text, case.slice_length, self.mistake);
        let slices = vec![Wrote::Start(outcome.written.clone())];
        self.compare(case, |_| Given::new(outcome.answer, slices))?;
        let short = [(WRONG_TEXT, tally::SHORT_ILLEGAL), (WRONG_NAME, tally::SHORT_BAD_NAME)];
        for (_, name) in short.iter().filter(|(code, _)| *code == outcome.answer.code) {
            self.tally.add_if(name, case.slice_length < LEAST_SHEET);
        }
        Ok(outcome)
    }

    /// Compares both, and where the sheet is accepted its run with the meaning
    /// of the text.
    pub fn translations_run(&mut self, case: &Case, random: &mut Random) -> Ended {
        let outcome = self.translations(case)?;
        if outcome.answer.code != ACCEPTED {
            return Ok(());
        }
        let sheet = &outcome.written[..outcome.answer.place as usize];
        let (Ok(circuit), Ok(syntax)) = (Circuit::read(sheet), syntax(&case.text)) else {
            self.tally.add(tally::REFUSED, 1);
            return Ok(());
        };
        let cycles = random.range(3, 9);
        let counts = circuit.counts(circuit.input()).repeat(cycles);
        let leaf = |count: &u8| random.below(usize::from(*count) + 1) as u8;
        let stimulus: Vec<u8> = counts.iter().map(leaf).collect();
        let meant = outputs(&syntax, stimulus::cycles(&circuit, &stimulus), IN_FORCE).concat();
        let mut given = vec![0; meant.len()];
        let mut next = vec![0; sheet.len()];
        let packed = run_of_archive(sheet, &stimulus, &mut given, &mut next);
        if packed != Answer::accepted(cycles as u32).packed() || given != meant {
            return Err(Halt::Difference(format!(
                "{}, in: {}, the run and the meaning\n{}stimulus: {}\n\
                 the run: {}, {}\nthe meaning: {}\n",
                report::FOUND,
                case.source,
                report::slice("text", Shown::Text, &case.text),
                hex(&stimulus),
                report::answer(packed),
                hex(&given),
                hex(&meant),
            )));
        }
        self.tally.add(tally::RUN, 1);
        features(&syntax).into_iter().for_each(|name| self.tally.add(name, 1));
        Ok(())
    }
}
