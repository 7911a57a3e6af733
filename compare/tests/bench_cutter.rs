//! The bench cutter's calls beside the large ones, on equal input and equal buffers: on a panel that both
//! take the same answer and the same bytes, and elsewhere the first refusal by the independent
//! implementation and no byte changed.

mod common;

use common::{any_of, buffer_for, dirty, list_for, number, order_on, scratch_for, Met, HOSTILE, PITCHES};
use compare::archive::{self, Answer};
use compare::{every_pair, random::Random, Cell, Order, USUAL};

/// Makes the large call and the bench's on equal bytes, and gives the bench's answer.
fn both(
    order: &Order,
    before: &[u8],
    large: impl Fn(&mut [u8]) -> Answer,
    bench: impl Fn(&mut [u8]) -> Answer,
) -> Answer {
    let (mut left_by_large, mut left_by_bench) = (before.to_vec(), before.to_vec());
    let (large, bench) = (large(&mut left_by_large), bench(&mut left_by_bench));
    assert_ne!(large.refusal, 19, "{order:?}: a large call");
    let (answer, left) = match order.check_bench() {
        Err(refusal) => (Answer::refused(refusal), before),
        Ok(()) => (large, &left_by_large[..]),
    };
    assert_eq!(bench, answer, "{order:?}, {} bytes", before.len());
    assert!(left_by_bench == left, "{order:?}, {} bytes: other bytes", before.len());
    bench
}

fn bound(order: &Order) -> Answer {
    both(order, &[], |_| archive::bound(order), |_| archive::bench_bound(order))
}

fn draw(order: &Order, before: &[u8]) -> Answer {
    both(order, before, |buffer| archive::draw(order, buffer), |buffer| archive::bench_draw(order, buffer))
}

fn judge(order: &Order, list: &[u8], before: &[u8]) -> Answer {
    both(
        order,
        before,
        |scratch| archive::judge(order, list, scratch),
        |scratch| archive::bench_judge(order, list, scratch),
    )
}

/// All three, with room for every cell and with none; Judge gets what the large call draws, or nothing.
fn all_three(random: &mut Random, order: &Order) -> [Answer; 3] {
    let area = if order.check().is_ok() { order.area() } else { 9 };
    let mut buffer = vec![0; 2 * area];
    let cells = archive::draw(order, &mut buffer).count as usize;
    let track = &buffer[..2 * cells];
    draw(order, &[]);
    judge(order, track, &[]);
    judge(order, &[], &[]);
    [bound(order), draw(order, &dirty(random, 2 * area)), judge(order, track, &dirty(random, area))]
}

/// What the bench refuses an order by, told without either implementation; 0 is nothing.
#[test]
fn refusals_told_by_hand() {
    let cases = [
        (0, 32, 32, USUAL, (1, 1), (32, 32)),
        (0, 1, 32, USUAL, (1, 32), (1, 32)),
        (19, 33, 32, USUAL, (1, 1), (32, 32)),
        (19, 32, 33, USUAL, (1, 1), (32, 32)),
        (19, 33, 1, USUAL, (2, 1), (2, 1)),
        (19, 1, 128, USUAL, (1, 1), (1, 2)),
        (19, 128, 128, USUAL, (1, 1), (2, 1)),
        (1, 0, 33, USUAL, (1, 1), (2, 1)),
        (1, 33, 0, USUAL, (1, 1), (2, 1)),
        (1, 129, 33, USUAL, (1, 1), (2, 1)),
        (1, 33, 129, USUAL, (1, 1), (2, 1)),
        (1, 33, 129, 0, (0, 0), (0, 0)),
        (1, 32, u32::MAX, USUAL, (1, 1), (2, 1)),
        (18, 33, 32, 999, (1, 1), (2, 1)),
        (18, 32, 128, 10_001, (1, 1), (2, 1)),
        (18, 33, 33, u32::MAX, (34, 1), (0, 1)),
        (19, 33, 32, USUAL, (34, 1), (2, 1)),
        (19, 32, 33, USUAL, (1, 1), (33, 1)),
        (2, 32, 32, USUAL, (33, 1), (33, 1)),
        (3, 32, 32, USUAL, (1, 1), (1, 33)),
    ];
    let mut random = Random::new(0x5EED_000A);
    for (refusal, width, height, pitch, entry, exit) in cases {
        let order = Order::new(width, height, pitch, entry, exit);
        let answers = all_three(&mut random, &order);
        assert_eq!(answers.map(|answer| answer.refusal), [refusal; 3], "{order:?}");
    }
}

/// Every order with terminals on a panel of sides 1, 2 and 3, or next to it, at every pitch.
#[test]
fn every_order_on_the_smallest_panels() {
    let mut random = Random::new(0x5EED_000B);
    let mut met = Met::new();
    for (width, height) in (1..=3).flat_map(|m| (1..=3).map(move |n| (m, n))) {
        let cells = || (0..=width + 1).flat_map(|x| (0..=height + 1).map(move |y| -> Cell { (x, y) }));
        for (entry, exit) in cells().flat_map(|s| cells().map(move |t| (s, t))) {
            for pitch in PITCHES {
                let order = Order::new(width, height, pitch, entry, exit);
                met.note(&order, bound(&order));
                for length in 0..=2 * order.area() + 3 {
                    met.note(&order, draw(&order, &dirty(&mut random, length)));
                }
                for _ in 0..8 {
                    let list = list_for(&mut random, &order);
                    met.note(&order, judge(&order, &list, &scratch_for(&mut random, &order)));
                }
            }
        }
    }
    met.at_least(100, &[0, 18, 2, 3, 5, 6, 7, 8, 9, 11]);
    met.spots_at_least(100);
}

#[test]
fn every_pair_up_to_eight_by_eight() {
    let mut random = Random::new(0x5EED_0011);
    for order in every_pair(8, USUAL) {
        let answers = all_three(&mut random, &order);
        assert!(answers.iter().all(|answer| answer.refusal == 0 && answer.count > 0), "{order:?}");
    }
}

/// Every panel that the bench takes, and those one cell beyond: corner to corner, and orders at random.
#[test]
fn every_panel_of_the_bench() {
    let mut random = Random::new(0x5EED_000C);
    for (width, height) in (1..=33).flat_map(|m| (1..=33).map(move |n| (m, n))) {
        let corners = [(1, 1), (width, 1), (1, height), (width, height)];
        let across = corners.map(|corner| Order::new(width, height, USUAL, corner, corners[3]));
        let others: [Order; 20] = std::array::from_fn(|_| random.order(width, height, USUAL));
        for order in across.iter().chain(&others) {
            let refusal = if width == 33 || height == 33 { 19 } else { 0 };
            let answers = all_three(&mut random, order);
            assert_eq!(answers.map(|answer| answer.refusal), [refusal; 3], "{order:?}");
        }
    }
}

/// A side at an end of what either kind of call takes, or, now and then, a hostile one.
fn side(random: &mut Random) -> u32 {
    match random.below(16) {
        0 => number(random, 32),
        _ => any_of(random, &[1, 2, 3, 31, 32, 33, 128, 129]),
    }
}

fn order(random: &mut Random) -> Order {
    let (width, height) = (side(random), side(random));
    order_on(random, width, height)
}

#[test]
fn random_bounds() {
    let mut random = Random::new(0x5EED_000D);
    let mut met = Met::new();
    for _ in 0..400_000 {
        let order = order(&mut random);
        met.note(&order, bound(&order));
    }
    met.at_least(100, &[0, 1, 18, 19, 2, 3]);
    met.spots_at_least(100);
}

#[test]
fn random_draws() {
    let mut random = Random::new(0x5EED_000E);
    let mut met = Met::new();
    for _ in 0..100_000 {
        let order = order(&mut random);
        met.note(&order, draw(&order, &buffer_for(&mut random, &order)));
    }
    met.at_least(100, &[0, 1, 18, 19, 2, 3, 5]);
    met.spots_at_least(100);
}

#[test]
fn random_judgements() {
    let mut random = Random::new(0x5EED_000F);
    let mut met = Met::new();
    for _ in 0..100_000 {
        let order = order(&mut random);
        let list = list_for(&mut random, &order);
        met.note(&order, judge(&order, &list, &scratch_for(&mut random, &order)));
    }
    met.at_least(100, &[0, 1, 18, 19, 2, 3, 5, 6, 7, 8, 9, 11]);
    met.spots_at_least(100);
}

/// Each one and each two of an order's seven numbers are hostile, on panels of both kinds.
#[test]
fn hostile_numbers() {
    let mut random = Random::new(0x5EED_0010);
    let mut met = Met::new();
    for (m, n) in [(7, 5), (32, 32), (33, 32)] {
        for (first, second) in (0..7).flat_map(|i| (0..=i).map(move |j| (i, j))) {
            for (one, other) in HOSTILE.into_iter().flat_map(|k| HOSTILE.map(|l| (k, l))) {
                let mut numbers = [m, n, USUAL, 1, 1, m, n];
                numbers[first] = one;
                numbers[second] = other;
                let [width, height, pitch, sx, sy, tx, ty] = numbers;
                let order = Order::new(width, height, pitch, (sx, sy), (tx, ty));
                all_three(&mut random, &order).into_iter().for_each(|answer| met.note(&order, answer));
            }
        }
    }
    met.at_least(100, &[0, 1, 18, 19, 2, 3]);
}
