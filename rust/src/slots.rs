//! The table of slots that the writer is lent: each thread that writes has one and keeps it.

use std::cell::Cell;

use crate::raw::{SLOTS, Slot};

thread_local! {
    static TABLE: Cell<Vec<Slot>> = const { Cell::new(Vec::new()) };
}

/// Lends the thread's table. A thread that has none gets one: when it first writes, and when it writes in its very end, after
/// its own was given back.
pub fn lend<T>(run: impl FnOnce(&mut [Slot]) -> T) -> T {
    let mut table = TABLE.try_with(Cell::take).unwrap_or_default();
    table.resize(SLOTS, Slot::default());
    let done = run(&mut table);
    let _ = TABLE.try_with(|own| own.set(table));
    done
}
