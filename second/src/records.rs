//! Reading records: kinds, sorts, and what each word of a kind asks for.

pub const RECORD_BYTES: usize = 12;
pub const MAX_RECORDS: usize = 4096;

pub const HEADER: u16 = 1;
pub const FLAT: u16 = 16;
pub const PAIR_TYPE: u16 = 17;
pub const CONSTANT: u16 = 32;
pub const NAME: u16 = 33;
pub const PAIR: u16 = 34;
pub const FIRST: u16 = 35;
pub const SECOND: u16 = 36;
pub const LET: u16 = 37;
pub const FEEDBACK: u16 = 38;
pub const IF: u16 = 39;
pub const DELAY: u16 = 40;
pub const WHOLE: u16 = 48;
pub const CONSTRUCTOR: u16 = 49;
pub const PAIR_PATTERN: u16 = 50;
pub const LEAF: u16 = 64;

/// Every kind outside the header.
pub const KINDS: [u16; 15] = [
    FLAT,
    PAIR_TYPE,
    CONSTANT,
    NAME,
    PAIR,
    FIRST,
    SECOND,
    LET,
    FEEDBACK,
    IF,
    DELAY,
    WHOLE,
    CONSTRUCTOR,
    PAIR_PATTERN,
    LEAF,
];

/// Six words; the constants below are their indices.
pub type Record = [u16; 6];
pub const KIND: usize = 0;
pub const NEXT: usize = 1;
pub const A: usize = 2;
pub const B: usize = 3;
pub const C: usize = 4;
pub const D: usize = 5;
pub const WORD_NAMES: [&str; 6] = ["kind", "next", "a", "b", "c", "d"];

#[derive(Clone, Copy, PartialEq, Eq, Debug)]
pub enum Sort {
    Type,
    Expression,
    Pattern,
    Leaf,
}

/// The sort of a record, by its kind; none for the header or an unknown kind.
pub fn sort(kind: u16) -> Option<Sort> {
    match kind {
        FLAT | PAIR_TYPE => Some(Sort::Type),
        CONSTANT..=DELAY => Some(Sort::Expression),
        WHOLE..=PAIR_PATTERN => Some(Sort::Pattern),
        LEAF => Some(Sort::Leaf),
        _ => None,
    }
}

/// What a word asks for.
#[derive(Clone, Copy, PartialEq, Eq, Debug)]
pub enum Word {
    /// Not mentioned for the kind: zero.
    Zero,
    /// A name's number: judged by the type rules only.
    Number,
    /// A delay's label: any number, 0 for none.
    Label,
    /// A flat type's number of constructors, 1 to 255.
    Count,
    /// A leaf's value, 0 to 255.
    LeafValue,
    /// 1 up to the count of the flat type in word a.
    Constructor,
    /// A type with a lower number.
    Type,
    /// A flat type with a lower number.
    FlatType,
    /// A record of this sort with a higher number.
    Part(Sort),
    /// Zero, or a record of this sort with a higher number.
    Next(Sort),
}

/// The words next, a, b, c, d of a kind outside the header.
pub fn words(kind: u16) -> Option<[Word; 5]> {
    use Word::{Constructor, Count, FlatType, Label, LeafValue, Next, Number, Part, Type, Zero};
    const TYPES: Word = Next(Sort::Type);
    const CHAIN: Word = Next(Sort::Pattern);
    const EXPRESSION: Word = Part(Sort::Expression);
    const PATTERN: Word = Part(Sort::Pattern);
    const LEAVES: Word = Part(Sort::Leaf);
    Some(match kind {
        FLAT => [TYPES, Count, Zero, Zero, Zero],
        PAIR_TYPE => [TYPES, Type, Type, Zero, Zero],
        CONSTANT => [Zero, Type, LEAVES, Zero, Zero],
        NAME => [Zero, Number, Zero, Zero, Zero],
        PAIR => [Zero, EXPRESSION, EXPRESSION, Zero, Zero],
        FIRST | SECOND => [Zero, EXPRESSION, Zero, Zero, Zero],
        LET => [Zero, EXPRESSION, EXPRESSION, Zero, Zero],
        FEEDBACK => [Zero, Type, EXPRESSION, EXPRESSION, Zero],
        IF => [Zero, EXPRESSION, EXPRESSION, EXPRESSION, PATTERN],
        DELAY => [Zero, Type, LEAVES, EXPRESSION, Label],
        WHOLE => [CHAIN, Type, Zero, Zero, Zero],
        CONSTRUCTOR => [CHAIN, FlatType, Constructor, Zero, Zero],
        PAIR_PATTERN => [CHAIN, PATTERN, PATTERN, Zero, Zero],
        LEAF => [Next(Sort::Leaf), LeafValue, Zero, Zero, Zero],
        _ => return None,
    })
}

/// The records of a sheet; bytes after the last whole record are left out.
pub fn read(sheet: &[u8]) -> Vec<Record> {
    let word = |bytes: &[u8], k: usize| u16::from_le_bytes([bytes[2 * k], bytes[2 * k + 1]]);
    sheet.chunks_exact(RECORD_BYTES).map(|bytes| std::array::from_fn(|k| word(bytes, k))).collect()
}

/// The bytes of a list of records.
pub fn bytes(records: &[Record]) -> Vec<u8> {
    records.iter().flatten().flat_map(|word| word.to_le_bytes()).collect()
}

/// The root expression's record, which the header names.
pub fn root(records: &[Record]) -> usize {
    usize::from(records[0][B])
}

/// The numbers of a record's parts that are expressions, with their words.
pub fn expression_parts(record: &Record) -> impl Iterator<Item = (usize, usize)> + '_ {
    let asked = words(record[KIND]).unwrap_or([Word::Zero; 5]);
    (0..5)
        .filter(move |&k| asked[k] == Word::Part(Sort::Expression))
        .map(|k| (NEXT + k, usize::from(record[NEXT + k])))
}
