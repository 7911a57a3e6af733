//! How many cells of which colour a drawn track leaves uncovered, by the independent implementation's class and
//! document 02's words: of both kinds of Draw, for every pair on panels of 3 to 8 by 3 to 8, and at random on larger
//! ones.

use std::collections::HashSet;

use compare::archive::{self, Answer};
use compare::{bound, cells, every_pair, random::Random, Cell, Order, USUAL};

fn black((x, y): Cell) -> bool {
    (x + y) % 2 == 1
}

fn odd(order: &Order) -> bool {
    order.area() % 2 == 1
}

/// The cells of the panel that do not stand in the list.
fn uncovered(order: &Order, list: &[u8]) -> Vec<Cell> {
    let listed: HashSet<Cell> = list.chunks(2).map(|cell| (cell[0].into(), cell[1].into())).collect();
    cells(order.width, order.height).filter(|cell| !listed.contains(cell)).collect()
}

fn as_promised(order: &Order, class: u32, cold: &[Cell]) -> bool {
    match (class, cold) {
        (3, []) => true,
        (4, &[cell]) if odd(order) => !black(cell),
        (4, &[cell]) => [order.entry, order.exit].iter().all(|&end| black(cell) != black(end)),
        (5, &[one, other]) if odd(order) => !black(one) && !black(other),
        (5, &[one, other]) => black(one) != black(other),
        _ => false,
    }
}

/// How often each line was met: classes 3, 4 and 5, mn being even and odd. A test that never meets one tests less
/// than it says.
type Lines = [[u32; 2]; 3];

/// What either Draw leaves of an order with different terminals and both sides 3 or more.
fn stays_cold(order: &Order, met: &mut Lines) {
    let class = bound(order).unwrap().class;
    let mut calls: Vec<fn(&Order, &mut [u8]) -> Answer> = vec![archive::draw];
    if order.check_bench().is_ok() {
        calls.push(archive::bench_draw);
    }
    for call in calls {
        let mut buffer = vec![0; 2 * order.area()];
        let count = call(order, &mut buffer).count as usize;
        let cold = uncovered(order, &buffer[..2 * count]);
        assert!(as_promised(order, class, &cold), "{order:?}, class {class}: {cold:?}");
    }
    met[class as usize - 3][usize::from(odd(order))] += 1;
}

#[test]
fn every_pair_on_panels_of_three_to_eight() {
    let mut met = Lines::default();
    let has_line = |order: &Order| order.width >= 3 && order.height >= 3 && order.entry != order.exit;
    every_pair(8, USUAL).filter(has_line).for_each(|order| stays_cold(&order, &mut met));
    assert!(met.iter().flatten().all(|&times| times > 100), "{met:?}");
}

/// Half of the panels have three rows or three columns, where F3 makes class 5 with mn even.
#[test]
fn random_orders() {
    let mut random = Random::new(0x5EED_0012);
    let mut met = Lines::default();
    for _ in 0..4_000 {
        let (width, height) = (random.within(3, 128), random.within(3, 128));
        let order = match random.below(4) {
            0 => random.order(width, 3, USUAL),
            1 => random.order(3, height, USUAL),
            _ => random.order(width, height, USUAL),
        };
        if order.entry != order.exit {
            stays_cold(&order, &mut met);
        }
    }
    assert!(met.iter().flatten().all(|&times| times > 100), "{met:?}");
}
