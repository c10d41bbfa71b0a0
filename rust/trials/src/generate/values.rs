//! Random value lists of a type. Most are values; some go too deep, hold bad text, have too many handles or break an enum.

use super::table::Lists;
use super::{strict, text};
use crate::random::Random;

/// Past this depth nothing more is made: the list is refused before.
const BOTTOM: usize = 40;

/// A value list of a row.
pub fn values(random: &mut Random, lists: &Lists, root: u32) -> Vec<u64> {
    // a deep list goes on to a depth around the limit of 32, a flat one ends where it has enough numbers
    let (depth, budget) = if random.one_in(5) {
        (random.pick(&[28, 30, 31, 31, 32, 32, 32, 33, 35]), 200)
    } else {
        (5, random.between(1, 60))
    };
    let strangers = random.one_in(6).then(|| random.pick(&[3, 3, 30, 3000]));
    let mut maker = Maker { random, lists, values: Vec::new(), depth, budget, strangers };
    maker.value(root, 0);
    maker.values
}

struct Maker<'m> {
    random: &'m mut Random,
    lists: &'m Lists,
    values: Vec<u64>,
    /// How deep the list should go.
    depth: usize,
    /// How many numbers it should have.
    budget: usize,
    /// If so, one in so many numbers of strict enums and bits is not among their values.
    strangers: Option<usize>,
}

impl Maker<'_> {
    /// Whether something that may be absent is there.
    fn wants(&mut self, depth: usize) -> bool {
        let deep = self.depth > 20;
        depth < self.depth
            && self.values.len() < self.budget
            && (deep && !self.random.one_in(40) || self.random.one_in(2))
    }

    fn value(&mut self, row: u32, depth: usize) {
        if depth > BOTTOM || self.values.len() > 70_000 {
            return;
        }
        let [kind, a, b, c] = self.lists.row(row);
        match kind {
            1 => self.put_below(2),
            2 => self.number(a),
            3 => self.handle(a),
            4 => (0..b).for_each(|_| self.value(a, depth)),
            5 => self.vector(a, b, c, depth),
            6 => self.string(b, c, depth),
            7 => {
                for &[_, part] in self.lists.members_of(row) {
                    self.value(part, depth);
                }
            }
            8 => {
                let present = self.wants(depth);
                self.values.push(present.into());
                if present {
                    self.value(a, depth + 1);
                }
            }
            9 => self.table(row, depth),
            10 => self.union(row, c, depth),
            11 | 12 => self.strict(row),
            _ => {}
        }
    }

    fn put_below(&mut self, limit: usize) {
        let number = self.random.below(limit);
        self.values.push(number as u64);
    }

    fn number(&mut self, width: u32) {
        let bits = 8 * width.clamp(1, 8);
        let word = self.random.word();
        let number = match self.random.below(4) {
            0 => 0,
            1 => u64::MAX,
            _ => word,
        };
        self.values.push(number >> (64 - bits));
    }

    fn strict(&mut self, row: u32) {
        let number = if self.strangers.is_some_and(|times| self.random.one_in(times)) {
            strict::stranger(self.random, self.lists, row)
        } else {
            strict::value(self.random, self.lists, row)
        };
        self.values.push(number);
    }

    fn handle(&mut self, optional: u32) {
        let present = optional == 0 || self.random.one_in(2);
        self.values.push(present.into());
    }

    fn vector(&mut self, element: u32, largest: u32, optional: u32, depth: usize) {
        if optional == 1 && !self.wants(depth) {
            return self.values.push(0);
        }
        let most = if self.wants(depth) { if self.depth > 20 { 1 } else { 6 } } else { 0 };
        let number = matches!(self.lists.row(element)[0], 1 | 2 | 11 | 12);
        let count = match self.random.below(400) {
            0 if number => self.random.pick(&[300, 8184, 65_520]),
            1..20 if number => self.random.below(80),
            _ => self.random.below(most + 1),
        };
        let count = count.min(largest as usize);
        self.values.push(count as u64 + 1);
        (0..count).for_each(|_| self.value(element, depth + 1));
    }

    fn string(&mut self, largest: u32, optional: u32, depth: usize) {
        if optional == 1 && !self.wants(depth) {
            return self.values.push(0);
        }
        let text = text::text(self.random, largest as usize);
        self.values.push(text.len() as u64 + 1);
        self.values.extend(text.iter().map(|&byte| u64::from(byte)));
    }

    fn table(&mut self, row: u32, depth: usize) {
        let members = self.lists.members_of(row);
        if !self.wants(depth) {
            return self.values.push(0);
        }
        let known = members.last().map_or(0, |&[ordinal, _]| ordinal.min(20) as usize);
        let highest = self.random.below(known + 3);
        self.values.push(highest as u64);
        for ordinal in 1..=highest {
            if ordinal < highest && self.random.one_in(2) {
                self.values.push(0);
            } else {
                self.values.push(1);
                self.content(row, ordinal as u64, depth + 2);
            }
        }
    }

    fn union(&mut self, row: u32, form: u32, depth: usize) {
        let members = self.lists.members_of(row);
        if form & 1 == 1 && !self.wants(depth) || members.is_empty() {
            return self.values.push(0);
        }
        let known = u64::from(self.random.pick(members)[0]);
        let stranger = form & 2 == 2 && self.random.one_in(3);
        let ordinal = if stranger { self.random.word() >> self.random.pick(&[0, 32, 60]) } else { known };
        self.values.push(ordinal.max(1));
        self.content(row, ordinal.max(1), depth + 1);
    }

    fn content(&mut self, row: u32, ordinal: u64, depth: usize) {
        let members = self.lists.members_of(row);
        match members.iter().find(|&&[known, _]| u64::from(known) == ordinal) {
            Some(&[_, payload]) => self.value(payload, depth),
            None => self.unknown(),
        }
    }

    fn unknown(&mut self) {
        let words = match self.random.below(60) {
            0..30 => 0,
            30 => self.random.between(8, 40) as u64,
            _ => self.random.between(1, 4) as u64,
        };
        // a handle takes four bytes, so one more than the most is no value
        let most = (2 * words).max(1);
        let handles = if self.random.one_in(4) { self.random.pick(&[1, 1, most, most, most + 1]) } else { 0 };
        self.values.extend([8 * words, handles]);
        if words == 0 {
            self.number(4);
        }
        (0..words).for_each(|_| self.number(8));
    }
}
