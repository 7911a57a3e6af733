//! The number of cells of a longest track by full search, for small panels.

use crate::order::{Cell, Order};

/// The longest track's number of cells from entry to exit, equal or not: every track from the entry is tried,
/// also past the exit, and counts if it ends there.
pub fn longest(order: &Order) -> u32 {
    let mut used = vec![false; order.area()];
    extend(order, order.entry, 1, &mut used)
}

fn extend(order: &Order, at: Cell, cells: u32, used: &mut [bool]) -> u32 {
    let place = ((at.1 - 1) * order.width + at.0 - 1) as usize;
    if used[place] {
        return 0;
    }
    used[place] = true;
    let (x, y) = at;
    let best = [(x + 1, y), (x - 1, y), (x, y + 1), (x, y - 1)]
        .into_iter()
        .filter(|&next| order.holds(next))
        .map(|next| extend(order, next, cells + 1, used))
        .max()
        .unwrap_or(0);
    used[place] = false;
    best.max(if at == order.exit { cells } else { 0 })
}
