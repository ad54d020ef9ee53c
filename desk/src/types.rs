//! The types of a sheet whose records are well formed: parts, constructors and
//! leaves, with the names of the text where there is one.

use second::records::{Record, A, B, KIND, PAIR_TYPE};
use second::text::syntax::Definition;

use crate::layout::Layout;

#[derive(Clone, Copy)]
pub struct Types<'a> {
    pub records: &'a [Record],
    pub layout: Option<&'a Layout>,
}

impl<'a> Types<'a> {
    /// The types of the two parts of a pair type.
    pub fn parts(&self, of: usize) -> Option<(usize, usize)> {
        let record = self.records[of];
        (record[KIND] == PAIR_TYPE).then(|| (usize::from(record[A]), usize::from(record[B])))
    }

    /// How many constructors a flat type has.
    pub fn count(&self, of: usize) -> usize {
        usize::from(self.records[of][A])
    }

    /// The flat types of a type's leaves, in their order.
    pub fn leaves(&self, of: usize) -> Vec<usize> {
        let mut leaves = Vec::new();
        let mut open = vec![of];
        while let Some(of) = open.pop() {
            match self.parts(of) {
                Some((first, second)) => open.extend([second, first]),
                None => leaves.push(of),
            }
        }
        leaves
    }

    /// The path to each leaf of a type, as `[1][2]`.
    pub fn paths(&self, of: usize) -> Vec<String> {
        let mut paths = Vec::new();
        let mut open = vec![(of, String::new())];
        while let Some((of, path)) = open.pop() {
            match self.parts(of) {
                Some((first, second)) => {
                    open.push((second, format!("{path}[2]")));
                    open.push((first, format!("{path}[1]")));
                }
                None => paths.push(path),
            }
        }
        paths
    }

    /// The number of leaves of every type, whatever it is; the header has none.
    pub fn widths(&self) -> Vec<u64> {
        let mut widths: Vec<u64> = Vec::new();
        for record in self.records {
            let width = |word: usize| widths.get(usize::from(record[word])).copied().unwrap_or(0);
            widths.push(match record[KIND] {
                PAIR_TYPE => width(A).saturating_add(width(B)),
                _ => 1,
            });
        }
        widths
    }

    /// The name of a type in the text.
    pub fn name(&self, of: usize) -> Option<&'a str> {
        let declaration = self.layout?.syntax.declarations.get(of.checked_sub(1)?)?;
        Some(&declaration.name.letters)
    }

    /// What a type is called in a sentence.
    pub fn label(&self, of: usize) -> String {
        self.name(of).map_or_else(|| format!("type {of}"), |name| format!("`{name}`"))
    }

    /// What a pair of types is called in a sentence.
    pub fn pair_label(&self, first: usize, second: usize) -> String {
        let bare =
            |of: usize| self.name(of).map_or_else(|| format!("type {of}"), |name| name.to_string());
        format!("({}, {})", bare(first), bare(second))
    }

    /// The names of a flat type's constructors, none without a text.
    pub fn constructors(&self, of: usize) -> Vec<&'a str> {
        let found = || {
            let declaration = self.layout?.syntax.declarations.get(of.checked_sub(1)?)?;
            match &declaration.definition {
                Definition::Flat(names) => {
                    Some(names.iter().map(|name| name.letters.as_str()).collect())
                }
                Definition::Pair(..) => None,
            }
        };
        found().unwrap_or_default()
    }

    /// A leaf of a flat type: `?`, a constructor's name, or its number.
    pub fn leaf(&self, of: usize, value: u8) -> String {
        match value {
            0 => "?".to_string(),
            value => match self.constructors(of).get(usize::from(value) - 1) {
                Some(name) => name.to_string(),
                None => value.to_string(),
            },
        }
    }

    /// A value as a text has it: `hi`, `?`, `(hi, lo)`.
    pub fn value(&self, of: usize, leaves: &[u8]) -> String {
        let mut rest = leaves.iter();
        self.value_from(of, &mut rest)
    }

    fn value_from(&self, of: usize, leaves: &mut std::slice::Iter<u8>) -> String {
        match self.parts(of) {
            Some((first, second)) => {
                let first = self.value_from(first, leaves);
                format!("({first}, {})", self.value_from(second, leaves))
            }
            None => self.leaf(of, leaves.next().copied().unwrap_or(0)),
        }
    }
}
