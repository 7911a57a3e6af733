//! Class and count, as document 01 lists them, R-6's class 6 in front: the first line that fits decides.

use crate::order::{Bounded, Cell, Order, Refusal};

fn is_white((x, y): Cell) -> bool {
    (x + y) % 2 == 0
}

/// Class and count of two cells of a good panel, equal or not.
pub fn class_count(width: u32, height: u32, entry: Cell, exit: Cell) -> Bounded {
    if entry == exit {
        return Bounded { class: 6, count: 1 };
    }
    if width < height {
        let turn = |(x, y): Cell| (y, x);
        return class_count(height, width, turn(entry), turn(exit));
    }
    let (m, n) = (width, height);
    let (s, t) = if entry.0 <= exit.0 { (entry, exit) } else { (exit, entry) };
    let apart = t.0 - s.0;
    let is_end = |c: Cell| c.0 == 1 || c.0 == m;

    if n == 1 && !(is_end(s) && is_end(t)) {
        return Bounded { class: 1, count: apart + 1 };
    }
    if n == 2 && (apart == 0 || apart == 1 && s.1 != t.1) {
        let sum = s.0 + t.0;
        return Bounded { class: 2, count: sum.max(2 * m - sum + 2) };
    }
    let area = m * n;
    let odd = area % 2 == 1;
    let f3 = n == 3
        && m % 2 == 0
        && !is_white(s)
        && is_white(t)
        && (apart >= 2 || apart == 1 && s.1 == 2 && t.1 == 2);
    if odd && !is_white(s) && !is_white(t) || f3 {
        return Bounded { class: 5, count: area - 2 };
    }
    let compatible = if odd {
        is_white(s) && is_white(t)
    } else {
        is_white(s) != is_white(t)
    };
    if compatible {
        Bounded { class: 3, count: area }
    } else {
        Bounded { class: 4, count: area - 1 }
    }
}

/// The call Bound.
pub fn bound(order: &Order) -> Result<Bounded, Refusal> {
    order.check()?;
    Ok(class_count(order.width, order.height, order.entry, order.exit))
}
