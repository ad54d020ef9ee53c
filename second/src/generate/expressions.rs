//! Random expressions of a wanted type.

use super::patterns;
use crate::draft::Draft;
use crate::random::Random;
use crate::records::{DELAY, FEEDBACK, FIRST, IF, LET, PAIR, SECOND};

/// The greatest number of feedbacks whose defining parts hold an expression.
const NESTING: usize = 3;

pub struct Grower<'a> {
    draft: &'a mut Draft,
    random: &'a mut Random,
    /// The types of the names in scope, the innermost last.
    scope: Vec<usize>,
    limit: usize,
    nesting: usize,
}

/// What a part is grown with: its depth, its room, and whether it has to
/// reach the greatest depth.
#[derive(Clone, Copy)]
struct Share {
    depth: usize,
    room: usize,
    spine: bool,
}

impl<'a> Grower<'a> {
    pub fn new(
        draft: &'a mut Draft,
        random: &'a mut Random,
        scope: Vec<usize>,
        limit: usize,
    ) -> Self {
        Grower { draft, random, scope, limit, nesting: 0 }
    }

    /// An expression of a type, at a depth, of about `room` records.
    pub fn expression(&mut self, of: usize, depth: usize, room: usize, spine: bool) -> usize {
        let stop = depth >= self.limit || (!spine && (room < 3 || self.random.one_in(12)));
        if stop {
            return self.closing(of);
        }
        let share = Share { depth: depth + 1, room: room.saturating_sub(1), spine };
        match self.form(of) {
            PAIR => self.pair(of, share),
            FIRST => self.part_of_pair(of, share, true),
            SECOND => self.part_of_pair(of, share, false),
            LET => self.bind(of, share),
            FEEDBACK => self.feedback(of, share),
            IF => self.choice(of, share),
            _ => self.delay(of, share),
        }
    }

    fn grow(&mut self, of: usize, share: Share) -> usize {
        self.expression(of, share.depth, share.room, share.spine)
    }

    /// A name or a constant.
    fn closing(&mut self, of: usize) -> usize {
        let last = self.scope.len() - 1;
        let names: Vec<usize> =
            (0..self.scope.len()).filter(|&k| self.scope[last - k] == of).collect();
        if !self.random.one_in(3) || self.draft.width(of) > 20 {
            if let Some(number) = self.random.pick(&names) {
                return self.draft.name(number as u16, of);
            }
        }
        self.draft.random_constant(of, self.random)
    }

    /// A kind of expression, other than name or constant, that can have the type.
    fn form(&mut self, of: usize) -> u16 {
        let mut forms = vec![LET, IF, IF, DELAY];
        if self.nesting < NESTING {
            forms.extend([FEEDBACK, FEEDBACK]);
        }
        if self.draft.parts(of).is_some() {
            forms.extend([PAIR, PAIR, PAIR]);
        }
        if !self.holders(of, true).is_empty() {
            forms.extend([FIRST, FIRST]);
        }
        if !self.holders(of, false).is_empty() {
            forms.extend([SECOND, SECOND]);
        }
        self.random.pick(&forms).unwrap_or(LET)
    }

    /// The pair types with this type as their first, or second, part.
    fn holders(&self, of: usize, first: bool) -> Vec<usize> {
        let holds = |&t: &usize| match self.draft.parts(t) {
            Some((a, b)) => of == if first { a } else { b },
            None => false,
        };
        self.draft.chain.iter().copied().filter(holds).collect()
    }

    /// Any type, mostly one whose constants take no more than the room.
    fn any_type(&mut self, room: usize) -> usize {
        let mut of = self.draft.chain[0];
        for _ in 0..4 {
            of = self.random.pick(&self.draft.chain).unwrap_or(of);
            if self.draft.width(of) as usize <= room {
                break;
            }
        }
        of
    }

    /// Divides a share among parts; one of them goes on with the spine.
    fn divide<const N: usize>(&mut self, share: Share) -> [Share; N] {
        let spine = self.random.below(N);
        let mut room = share.room;
        std::array::from_fn(|k| {
            let part = if k + 1 == N { room } else { self.random.below(room + 1) };
            room -= part;
            Share { depth: share.depth, room: part, spine: share.spine && k == spine }
        })
    }

    fn pair(&mut self, of: usize, share: Share) -> usize {
        let Some((first, second)) = self.draft.parts(of) else {
            return self.closing(of);
        };
        let [one, two] = self.divide(share);
        let a = self.grow(first, one);
        let b = self.grow(second, two);
        self.draft.pair(a, b, of)
    }

    fn part_of_pair(&mut self, of: usize, share: Share, first: bool) -> usize {
        let holders = self.holders(of, first);
        let Some(whole) = self.random.pick(&holders) else {
            return self.closing(of);
        };
        let part = self.grow(whole, share);
        if first {
            self.draft.first(part, of)
        } else {
            self.draft.second(part, of)
        }
    }

    fn bind(&mut self, of: usize, share: Share) -> usize {
        let [one, two] = self.divide(share);
        let name = self.any_type(one.room);
        let defining = self.grow(name, one);
        self.scope.push(name);
        let body = self.grow(of, two);
        self.scope.pop();
        self.draft.bind(defining, body)
    }

    fn feedback(&mut self, of: usize, share: Share) -> usize {
        let [one, two] = self.divide(share);
        let name = self.any_type(one.room);
        self.scope.push(name);
        self.nesting += 1;
        let defining = self.grow(name, one);
        self.nesting -= 1;
        let body = self.grow(of, two);
        self.scope.pop();
        self.draft.feedback(name, defining, body)
    }

    fn choice(&mut self, of: usize, share: Share) -> usize {
        let [one, two, three] = self.divide(share);
        let tested = self.any_type(one.room);
        let a = self.grow(tested, one);
        let pattern = patterns::chain(self.draft, tested, self.random);
        let b = self.grow(of, two);
        let c = self.grow(of, three);
        self.draft.choice(a, pattern, b, c)
    }

    fn delay(&mut self, of: usize, share: Share) -> usize {
        let room = share.room.saturating_sub(self.draft.width(of) as usize);
        let part = self.grow(of, Share { room, ..share });
        let leaf = self.draft.random_leaves(of, self.random);
        self.draft.delay(of, leaf, part)
    }
}
