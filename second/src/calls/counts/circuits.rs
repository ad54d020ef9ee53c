//! Circuits that are timed: counts of a few evaluations, of some, and of very
//! many. A bit has the constructors 1 hi and 2 lo.

use crate::draft::Draft;
use crate::generate::network::leaf_of;
use crate::generate::types::doubling;
use crate::layout::{layout_in, Order};
use crate::random::Random;
use crate::records::bytes;

const HI: u16 = 1;
const LO: u16 = 2;

/// A circuit over bits, and the state of a fold over them.
struct Bits {
    draft: Draft,
    bit: usize,
    pair: usize,
    input: usize,
    /// The defining parts of the LETs, each a state; the innermost is the last.
    states: Vec<usize>,
}

impl Bits {
    /// On an input of a power of two of bits, at least two.
    fn new(doublings: usize) -> Bits {
        let mut draft = Draft::new();
        let bit = draft.flat(2);
        let input = doubling(&mut draft, doublings);
        draft.set_input(input);
        let pair = draft.need_pair(bit, bit);
        Bits { draft, bit, pair, input, states: Vec::new() }
    }

    fn leaf(&mut self, leaf: usize) -> usize {
        let names = self.states.len() as u16;
        leaf_of(&mut self.draft, names, self.input, leaf)
    }

    fn state(&mut self) -> usize {
        self.draft.name(0, self.bit)
    }

    fn constant(&mut self, value: u16) -> usize {
        let leaf = self.draft.leaves(&[value]);
        self.draft.constant(self.bit, leaf)
    }

    /// The pattern of some pairs of bits.
    fn pattern(&mut self, pairs: &[(u16, u16)]) -> usize {
        let patterns: Vec<usize> = pairs
            .iter()
            .map(|&(a, b)| {
                let a = self.draft.constructor(self.bit, a);
                let b = self.draft.constructor(self.bit, b);
                self.draft.pair_pattern(a, b, self.pair)
            })
            .collect();
        self.draft.alternatives(&patterns)
    }

    /// IF the pair of two bits is one of some pairs THEN .. ELSE ..
    fn choice(
        &mut self,
        bits: (usize, usize),
        pairs: &[(u16, u16)],
        then: usize,
        other: usize,
    ) -> usize {
        let tested = self.draft.pair(bits.0, bits.1, self.pair);
        let pattern = self.pattern(pairs);
        self.draft.choice(tested, pattern, then, other)
    }

    /// The sheet of LETs of the states, and an expression in them.
    fn sheet(mut self, body: usize) -> Vec<u8> {
        let bind = |body, part| self.draft.bind(part, body);
        let root = self.states.into_iter().rev().fold(body, bind);
        self.draft.set_root(root);
        bytes(&layout_in(&self.draft, Order::Oldest, &mut Random::new(1)))
    }

    /// The sheet whose output is the last state.
    fn last_state(mut self) -> Vec<u8> {
        let body = self.state();
        self.sheet(body)
    }
}

/// The first bit, and with each later one the value for the pair of both.
fn folded(doublings: usize, hi: &[(u16, u16)]) -> Vec<u8> {
    let mut bits = Bits::new(doublings);
    let first = bits.leaf(0);
    bits.states.push(first);
    for leaf in 1..1 << doublings {
        let two = (bits.state(), bits.leaf(leaf));
        let (then, other) = (bits.constant(HI), bits.constant(LO));
        let state = bits.choice(two, hi, then, other);
        bits.states.push(state);
    }
    bits.last_state()
}

/// Hi where every bit is.
pub fn and(doublings: usize) -> Vec<u8> {
    folded(doublings, &[(HI, HI)])
}

/// Hi where an odd number of bits is.
pub fn xor(doublings: usize) -> Vec<u8> {
    folded(doublings, &[(HI, LO), (LO, HI)])
}

/// The last bit.
pub fn last(doublings: usize) -> Vec<u8> {
    let mut bits = Bits::new(doublings);
    let leaf = bits.leaf((1 << doublings) - 1);
    bits.sheet(leaf)
}

/// IF the first of three bits is hi THEN the second ELSE the third.
pub fn multiplexer(doublings: usize, three: [usize; 3]) -> Vec<u8> {
    let mut bits = Bits::new(doublings);
    let [tested, then, other] = three.map(|leaf| bits.leaf(leaf));
    let pattern = bits.draft.constructor(bits.bit, HI);
    let root = bits.draft.choice(tested, pattern, then, other);
    bits.sheet(root)
}

/// Hi where the first half of the bits equals the second.
pub fn equality(doublings: usize) -> Vec<u8> {
    let mut bits = Bits::new(doublings);
    let half = 1 << (doublings - 1);
    let hi = bits.constant(HI);
    bits.states.push(hi);
    for leaf in 0..half {
        let two = (bits.leaf(leaf), bits.leaf(half + leaf));
        let (then, other) = (bits.state(), bits.constant(LO));
        let state = bits.choice(two, &[(HI, HI), (LO, LO)], then, other);
        bits.states.push(state);
    }
    bits.last_state()
}

/// The carry out of the sum of both halves of the bits, hi for one.
pub fn carry(doublings: usize, low_bit_first: bool) -> Vec<u8> {
    let mut bits = Bits::new(doublings);
    let half = 1 << (doublings - 1);
    let none = bits.constant(LO);
    bits.states.push(none);
    for k in 0..half {
        let leaf = if low_bit_first { k } else { half - 1 - k };
        let two = (bits.leaf(leaf), bits.leaf(half + leaf));
        let (state, one) = (bits.state(), bits.constant(HI));
        let both = bits.choice(two, &[(HI, HI)], one, state);
        let two = (bits.leaf(leaf), bits.leaf(half + leaf));
        let none = bits.constant(LO);
        let carried = bits.choice(two, &[(LO, LO)], none, both);
        bits.states.push(carried);
    }
    bits.last_state()
}

/// The second of two leaves of so many constructors.
pub fn second_of_two(constructors: u16) -> Vec<u8> {
    let mut draft = Draft::new();
    let flat = draft.flat(constructors);
    let input = draft.need_pair(flat, flat);
    draft.set_input(input);
    let name = draft.name(0, input);
    let root = draft.second(name, flat);
    draft.set_root(root);
    bytes(&layout_in(&draft, Order::Oldest, &mut Random::new(1)))
}

/// A timed circuit and, by hand, how many inputs give 1 and how many each other
/// constructor of the output.
pub struct Row {
    pub name: &'static str,
    pub sheet: Vec<u8>,
    pub first: u32,
    pub others: u32,
    /// The greatest ratio of the archive's time to that of a plain loop.
    pub limit: Option<f64>,
}

/// All circuits that are timed: of 16 bits, and of two leaves of 255.
pub fn rows() -> Vec<Row> {
    let row = |name, sheet, first, others, limit| Row { name, sheet, first, others, limit };
    let half = 1 << 15;
    // Of the pairs of bytes, 255 + 254 + .. + 1 have a sum above 255.
    let carried = 255 * 256 / 2;
    vec![
        row("AND of 16", and(4), 1, 65_535, Some(0.02)),
        row("last of 16", last(4), half, half, Some(0.02)),
        row("mux of 15, 3, 9", multiplexer(4, [15, 3, 9]), half, half, Some(0.02)),
        row("second of two of 255", second_of_two(255), 255, 255, Some(0.02)),
        row("equality of 8 and 8", equality(4), 256, 65_280, Some(0.1)),
        row("carry, low bit first", carry(4, true), carried, 65_536 - carried, None),
        row("carry, low bit last", carry(4, false), carried, 65_536 - carried, None),
        row("XOR of 16", xor(4), half, half, Some(0.8)),
    ]
}
