//! Tables of slots as callers lend them: with anything in them, between slots that are not lent.

use std::sync::LazyLock;

use crepedum::raw::Slot;
use oracle::rng::Rng;

/// How many slots the paper asks for.
pub const SLOTS: usize = 8192;
/// Slots on both sides of the lent ones.
const GUARD: usize = 4;
const DRAWN: usize = 4 * SLOTS;

/// Slots as a careless or a malicious caller has them: numbers that mean something in a table, and numbers that do not.
static POOL: LazyLock<Vec<Slot>> = LazyLock::new(|| {
    let mut rng = Rng::new(0x510D);
    (0..DRAWN).map(|_| drawn_slot(&mut rng)).collect()
});

fn drawn_slot(rng: &mut Rng) -> Slot {
    let mut number = |limit: usize| {
        if rng.one_in(2) {
            rng.below(limit) as u32
        } else {
            rng.draw() as u32
        }
    };
    Slot {
        state: number(4),
        hash: number(SLOTS),
        record: number(16),
    }
}

/// A table with its guards, and what it held before it was lent.
pub struct Table {
    before: Vec<Slot>,
    slots: Vec<Slot>,
}

impl Table {
    /// So many slots, from a place of the pool that another number draws.
    pub fn drawn(slots: usize, draw: u64) -> Self {
        let length = slots + 2 * GUARD;
        let start = Rng::new(draw).below(DRAWN);
        let mut before = Vec::with_capacity(length);
        let mut rest = &POOL[start..];
        while before.len() < length {
            before.extend_from_slice(&rest[..rest.len().min(length - before.len())]);
            rest = &POOL;
        }
        Self::holding(before)
    }

    /// So many slots that all hold the same.
    pub fn filled(slots: usize, held: Slot) -> Self {
        Self::holding(vec![held; slots + 2 * GUARD])
    }

    fn holding(before: Vec<Slot>) -> Self {
        let slots = before.clone();
        Self { before, slots }
    }

    /// The slots as they were left; for the next caller that is what they held before.
    pub fn again(self) -> Self {
        Self::holding(self.slots)
    }

    pub fn len(&self) -> usize {
        self.slots.len() - 2 * GUARD
    }

    pub fn lend(&mut self) -> &mut [Slot] {
        let end = self.slots.len() - GUARD;
        &mut self.slots[GUARD..end]
    }

    /// The first slot that is not as it was, counted from the first that was lent.
    pub fn changed(&self) -> Option<i64> {
        self.changed_within(0..self.slots.len())
    }

    /// The same of the slots that were not lent.
    pub fn changed_around(&self) -> Option<i64> {
        let end = self.slots.len() - GUARD;
        self.changed_within((0..GUARD).chain(end..end + GUARD))
    }

    fn changed_within(&self, mut places: impl Iterator<Item = usize>) -> Option<i64> {
        let at = places.find(|at| self.slots[*at] != self.before[*at])?;
        Some(at as i64 - GUARD as i64)
    }
}
