//! The archive's calls beside the independent implementation: every pair up to 8 by 8, equal or not, every
//! fault beside every pitch, every short list on a small panel, lists longer than the panel, and more than a
//! million random and hostile calls, fixed by their seeds.

mod common;

use common::{buffer_for, dirty, list_for, number, order_on, scratch_for, Met, PITCHES};
use compare::archive::{self, Answer, Judge};
use compare::{bound, cells, draw, every_pair, judge, judge_once, pairs, random::Random, Cell, Order, Refusal, USUAL};

fn packed<T>(answer: &Result<T, Refusal>, class_count: impl Fn(&T) -> (u32, u32)) -> Answer {
    match answer {
        Ok(value) => {
            let (class, count) = class_count(value);
            Answer { refusal: 0, class, count }
        }
        Err(refusal) => Answer::refused(*refusal),
    }
}

fn compare_bound(order: &Order) -> Answer {
    let expected = packed(&bound(order), |b| (b.class, b.count));
    let answer = archive::bound(order);
    assert_eq!(answer, expected, "{order:?}");
    answer
}

/// Refusal and count are equal; the track is one by the independent judge; the rest of the buffer stays.
fn compare_draw(order: &Order, buffer: &mut [u8]) -> Answer {
    let before = buffer.to_vec();
    let mut own = before.clone();
    let expected = packed(&draw(order, &mut own), |&count| (0, count));
    let answer = archive::draw(order, buffer);
    assert_eq!(answer, expected, "{order:?}, buffer of {}", before.len());
    let end = 2 * answer.count as usize;
    assert!(buffer[end..] == before[end..], "{order:?}: bytes behind the track");
    if answer.refusal == 0 {
        let mut scratch = vec![0; order.area()];
        assert_eq!(judge(order, &buffer[..end], &mut scratch), Ok(answer.count), "{order:?}");
    }
    answer
}

/// The archive's Judge, the twin's two and the C ones give one answer and leave one scratch.
fn compare_judge(order: &Order, list: &[u8], scratch: &mut [u8]) -> Answer {
    let before = scratch.to_vec();
    let mut own = before.clone();
    let expected = packed(&judge(order, list, &mut own), |&count| (0, count));
    let answer = archive::judge(order, list, scratch);
    assert_eq!(answer, expected, "{order:?} {list:?}, scratch of {}", own.len());
    assert!(*scratch == own[..], "{order:?} {list:?}: scratch");
    // What is tested before the cells leaves the scratch, 18 too.
    let cells_looked_at = matches!(answer.refusal, 0 | 7..=9 | 11);
    assert!(cells_looked_at || *scratch == before[..], "{order:?} {list:?}: scratch touched");
    // The forms that are only timed.
    let once: Judge = |o, l, s| packed(&judge_once(o, l, s), |&count| (0, count));
    for (name, timed) in [vec![("Rust", once)], archive::judges_in_c()].concat() {
        let mut marks = before.clone();
        assert_eq!(timed(order, list, &mut marks), expected, "{order:?} {list:?}, one pass in {name}");
        assert!(marks == own, "{order:?} {list:?}: scratch, one pass in {name}");
    }
    answer
}

#[test]
fn every_pair_up_to_eight_by_eight() {
    for order in every_pair(8, USUAL) {
        let class = compare_bound(&order).class;
        assert_eq!(class == 6, order.entry == order.exit, "{order:?}: class {class}");
        let mut buffer = [0xA5; 2 * 64 + 2];
        let count = compare_draw(&order, &mut buffer).count as usize;
        compare_draw(&order, &mut [0x5A; 2 * 64][..2 * count]);
        compare_draw(&order, &mut [0x5A; 2 * 64][..2 * count - 1]);
        let mut scratch = [0xA5; 66];
        compare_judge(&order, &buffer[..2 * count], &mut scratch);
        compare_judge(&order, &buffer[..2 * count], &mut scratch[..order.area() - 1]);
    }
}

/// The bytes of a cell.
fn bytes((x, y): Cell) -> [u8; 2] {
    [x as u8, y as u8]
}

/// Equal terminals, told without either implementation: class 6, one cell, and only that cell is written.
fn is_a_spot(order: &Order) {
    assert_eq!(compare_bound(order), Answer { refusal: 0, class: 6, count: 1 }, "{order:?}");
    let one = Answer { refusal: 0, class: 0, count: 1 };
    let mut buffer = [0xA5; 5];
    assert_eq!(compare_draw(order, &mut buffer), one, "{order:?}");
    assert_eq!(buffer, [&bytes(order.entry)[..], &[0xA5; 3]].concat()[..], "{order:?}");
    let mut scratch = vec![0xA5; order.area() + 2];
    assert_eq!(compare_judge(order, &buffer[..2], &mut scratch), one, "{order:?}");
}

#[test]
fn every_cell_is_a_spot() {
    for (width, height) in [(1, 1), (9, 1), (1, 128), (17, 2), (3, 3), (4, 3), (7, 11), (128, 128)] {
        cells(width, height).for_each(|cell| is_a_spot(&Order::new(width, height, USUAL, cell, cell)));
    }
}

/// What stands first among the refusals, told without either implementation: 1, then 18.
fn first_refusal(order: &Order) -> Option<u32> {
    let good_side = |side: u32| side != 0 && side <= 128;
    if !good_side(order.width) || !good_side(order.height) {
        Some(1)
    } else if order.pitch < 1_000 || order.pitch > 10_000 {
        Some(18)
    } else {
        None
    }
}

/// The answer of a call begins with those two, and gives them nowhere else.
fn in_order(order: &Order, answer: Answer) -> Answer {
    let met = Some(answer.refusal).filter(|refusal| [1, 18].contains(refusal));
    assert_eq!(met, first_refusal(order), "{order:?}");
    answer
}

/// Every fault of an order, alone and with others, on a panel of 4 by 3; the pitch is the usual one.
fn faulty_orders() -> Vec<Order> {
    let cells = [(1, 1), (4, 2), (0, 1), (4, 0), (5, 1), (1, 4), (u32::MAX, 2)];
    let mut orders = Vec::new();
    for width in [4, 0, 129, u32::MAX] {
        for height in [3, 0, 129, u32::MAX] {
            for entry in cells {
                orders.extend(cells.map(|exit| Order::new(width, height, USUAL, entry, exit)));
            }
        }
    }
    orders
}

/// Calls for every faulty order, at the seven pitches and at random ones.
fn at_every_pitch(seed: u64, mut call: impl FnMut(&Order)) {
    let mut random = Random::new(seed);
    for order in faulty_orders() {
        PITCHES.into_iter().for_each(|pitch| call(&order.at(pitch)));
        (0..4).for_each(|_| call(&order.at(random.next() as u32)));
        (0..4).for_each(|_| call(&order.at(random.within(1_000, 10_000))));
    }
}

#[test]
fn every_fault_beside_every_pitch_in_bound() {
    let mut met = Met::new();
    at_every_pitch(0x5EED_0004, |order| met.note(order, in_order(order, compare_bound(order))));
    met.at_least(10, &[0, 1, 18, 2, 3]);
    met.spots_at_least(10);
}

#[test]
fn every_fault_beside_every_pitch_in_draw() {
    let mut met = Met::new();
    at_every_pitch(0x5EED_0005, |order| {
        let enough = bound(&order.at(USUAL)).map_or(24, |b| 2 * b.count) as usize;
        for length in [0, 1, enough - 1, enough, enough + 5] {
            met.note(order, in_order(order, compare_draw(order, &mut vec![0xA5; length])));
        }
    });
    met.at_least(10, &[0, 1, 18, 2, 3, 5]);
    met.spots_at_least(10);
}

#[test]
fn every_fault_beside_every_pitch_in_judge() {
    // A track from (1, 1) to (4, 2), its reverse, one cell, and lists for 6, 7, 8 and 9.
    let lists: [&[u8]; 8] = [
        &[1, 1, 2, 1, 3, 1, 4, 1, 4, 2],
        &[4, 2, 4, 1, 3, 1, 2, 1, 1, 1],
        &[4, 2],
        &[],
        &[1, 1, 2],
        &[1, 1, 0, 1, 1, 1],
        &[1, 1, 3, 1, 4, 2],
        &[1, 1, 2, 1, 1, 1],
    ];
    let mut met = Met::new();
    at_every_pitch(0x5EED_0006, |order| {
        for (list, room) in lists.into_iter().flat_map(|list| [0, 11, 12, 17].map(|room| (list, room))) {
            met.note(order, in_order(order, compare_judge(order, list, &mut vec![0xA5; room])));
        }
    });
    met.at_least(10, &[0, 1, 18, 2, 3, 5, 6, 7, 8, 9, 11]);
    met.spots_at_least(10);
}

/// What the archive's calls answer, and their whole buffers after.
fn everything(order: &Order) -> ([Answer; 3], [Vec<u8>; 2]) {
    let room = 2 * order.area() + 5;
    let (mut buffer, mut scratch) = (vec![0xA5; room], vec![0x5A; room]);
    let drawn = archive::draw(order, &mut buffer);
    let judged = archive::judge(order, &buffer[..2 * drawn.count as usize], &mut scratch);
    ([archive::bound(order), drawn, judged], [buffer, scratch])
}

/// A good order gets the same at every pitch of the range.
fn same_at_every_pitch(order: &Order, random: &mut Random) {
    let usual = everything(&order.at(USUAL));
    assert_eq!(usual.0.map(|answer| answer.refusal), [0; 3], "{order:?}");
    for pitch in [1_000, 10_000, random.within(1_000, 10_000), random.within(1_000, 10_000)] {
        assert!(everything(&order.at(pitch)) == usual, "{order:?}: another answer or track at {pitch}");
    }
}

#[test]
fn a_pitch_in_the_range_changes_nothing() {
    let mut random = Random::new(0x5EED_0007);
    for order in every_pair(6, USUAL) {
        same_at_every_pitch(&order, &mut random);
    }
    for _ in 0..1_000 {
        let order = order(&mut random, 2);
        if order.at(USUAL).check().is_ok() {
            same_at_every_pitch(&order, &mut random);
        }
    }
}

/// An order on a panel that is small, middling, or, once in `rarely`, of any size.
fn order(random: &mut Random, rarely: u32) -> Order {
    let largest = match random.below(rarely) {
        0 => 128,
        k if k % 3 == 0 => 16,
        _ => 6,
    };
    let (width, height) = (number(random, largest), number(random, largest));
    order_on(random, width, height)
}

#[test]
fn random_and_hostile_bounds() {
    let mut random = Random::new(0x5EED_0001);
    let mut met = Met::new();
    for _ in 0..1_000_000 {
        let order = order(&mut random, 4);
        met.note(&order, compare_bound(&order));
    }
    met.at_least(100, &[0, 1, 18, 2, 3]);
    met.spots_at_least(100);
}

#[test]
fn random_and_hostile_draws() {
    let mut random = Random::new(0x5EED_0002);
    let mut met = Met::new();
    for _ in 0..250_000 {
        let order = order(&mut random, 400);
        met.note(&order, compare_draw(&order, &mut buffer_for(&mut random, &order)));
    }
    met.at_least(100, &[0, 1, 18, 2, 3, 5]);
    met.spots_at_least(100);
}

#[test]
fn random_and_hostile_judgements() {
    let mut random = Random::new(0x5EED_0003);
    let mut met = Met::new();
    for _ in 0..400_000 {
        let order = order(&mut random, 400);
        let list = list_for(&mut random, &order);
        met.note(&order, compare_judge(&order, &list, &mut scratch_for(&mut random, &order)));
    }
    met.at_least(100, &[0, 1, 18, 2, 3, 5, 6, 7, 8, 9, 11]);
    met.spots_at_least(100);
}

/// Every list of up to three cells on a panel of 2 by 2 or next to it, for every two terminals: between equal
/// ones that cell alone is accepted.
#[test]
fn every_short_list() {
    let cells: Vec<[u8; 2]> = (0..=3).flat_map(|x| (0..=3).map(move |y| [x, y])).collect();
    let longer = |lists: &[Vec<u8>]| -> Vec<Vec<u8>> {
        lists.iter().flat_map(|list| cells.iter().map(|cell| [&list[..], &cell[..]].concat())).collect()
    };
    let none = vec![vec![]];
    let one = longer(&none);
    let two = longer(&one);
    let three = longer(&two);
    let mut met = Met::new();
    for order in pairs(2, 2, USUAL) {
        for list in [&none, &one, &two, &three].into_iter().flatten() {
            let answer = compare_judge(&order, list, &mut [0xA5; 5]);
            if order.entry == order.exit {
                assert_eq!(answer.refusal == 0, **list == bytes(order.entry), "{order:?} {list:?}");
            }
            met.note(&order, answer);
        }
    }
    met.at_least(1, &[0, 6, 7, 8, 9, 11]);
    met.spots_at_least(4);
}

/// Every list of mn + 1 cells, on a small panel or at one of two places beside it, for every two terminals: the
/// refusal, told without either implementation, is 7, 8 or 9.
#[test]
fn every_list_of_a_cell_more_than_the_panel() {
    let mut met = Met::new();
    for (width, height) in [(1, 1), (2, 1), (1, 3), (2, 2)] {
        let cells: Vec<Cell> = cells(width, height).chain([(0, 1), (1, height + 1)]).collect();
        let longer = |lists: Vec<Vec<Cell>>| -> Vec<Vec<Cell>> {
            lists.iter().flat_map(|list| cells.iter().map(|&cell| [&list[..], &[cell]].concat())).collect()
        };
        let lists = (0..=width * height).fold(vec![vec![]], |lists, _| longer(lists));
        for order in pairs(width, height, USUAL) {
            for list in &lists {
                let jump = |pair: &[Cell]| pair[0].0.abs_diff(pair[1].0) + pair[0].1.abs_diff(pair[1].1) != 1;
                let expected = match () {
                    _ if list.iter().any(|&(x, y)| x == 0 || y > height) => 7,
                    _ if list.windows(2).any(jump) => 8,
                    _ => 9,
                };
                let bytes: Vec<u8> = list.iter().copied().flat_map(bytes).collect();
                let answer = compare_judge(&order, &bytes, &mut [0xA5; 5]);
                assert_eq!(answer, Answer { refusal: expected, class: 0, count: 0 }, "{order:?} {list:?}");
                met.note(&order, answer);
            }
        }
    }
    met.at_least(1, &[7, 8, 9]);
}

/// All cells of a panel, row by row, one to the right, the next to the left.
fn rows(width: u32, height: u32) -> Vec<u8> {
    let row = |y| (1..=width).map(move |x| bytes((if y % 2 == 1 { x } else { width + 1 - x }, y)));
    (1..=height).flat_map(row).flatten().collect()
}

/// Late faults, told without either implementation: behind all cells of a panel a repeat, a cell off the panel,
/// and both, with the right ends and wrong ones.
#[test]
fn faults_behind_all_cells_of_a_panel() {
    for (width, height) in [(2, 1), (1, 2), (3, 2), (7, 5), (128, 1), (1, 128), (32, 32), (33, 3), (128, 128)] {
        let all = rows(width, height);
        let [.., back_x, back_y, last_x, last_y] = all[..] else { unreachable!() };
        let (back, last, off) = ([back_x, back_y], [last_x, last_y], [last_x, last_y + 1]);
        let ends = [(u32::from(last_x), u32::from(last_y)), (1, 1), (u32::from(back_x), u32::from(back_y))];
        for order in ends.map(|exit| Order::new(width, height, USUAL, (1, 1), exit)) {
            let refusal = |behind: &[[u8; 2]]| {
                let list = [&all[..], &behind.concat()].concat();
                compare_judge(&order, &list, &mut vec![0xA5; order.area() + 3]).refusal
            };
            assert_eq!(refusal(&[]), if order.exit == ends[0] { 0 } else { 11 }, "{order:?}");
            assert_eq!(refusal(&[back]), 9, "{order:?}: a repeat");
            assert_eq!(refusal(&[back, last]), 9, "{order:?}: two repeats");
            assert_eq!(refusal(&[off]), 7, "{order:?}: a cell off the panel");
            assert_eq!(refusal(&[back, last, off]), 7, "{order:?}: a repeat, then off the panel");
            assert_eq!(refusal(&[off, last, back]), 7, "{order:?}: off the panel, then a repeat");
        }
    }
}

/// To and fro on a panel of two, with more cells than 8, 16 or 24 bits can count (a packed count has 24); cut to so
/// many bits the number would be 2, as many as the panel has. Refused 9, and 7 with a last cell off the panel.
#[test]
fn lists_far_longer_than_the_panel() {
    let order = Order::new(1, 2, USUAL, (1, 1), (1, 2));
    for cells in [1 << 8, 1 << 16, 1 << 24].map(|full| full + 2) {
        let mut list = [1, 1, 1, 2].repeat(cells / 2);
        let refusal = |list: &[u8]| {
            let mut scratch = [0xA5; 3];
            let answer = archive::judge(&order, list, &mut scratch);
            assert_eq!((answer.class, answer.count, scratch), (0, 0, [0, 0, 0xA5]), "{cells} cells");
            answer.refusal
        };
        assert_eq!(refusal(&list), 9, "{cells} cells");
        *list.last_mut().unwrap() = 3;
        assert_eq!(refusal(&list), 7, "{cells} cells");
    }
}

/// A list along the first row of a panel of two rows, with faults in the given order between its steps: 7
/// is a cell above the panel, 8 a cell left out, 9 a step back.
fn with_faults(faults: &[u32]) -> Vec<u8> {
    let mut list = vec![1, 1, 2, 1];
    let mut x = 2;
    let mut go = |cells: &[(u8, u8)]| cells.iter().for_each(|&(x, y)| list.extend([x, y]));
    for fault in faults {
        match fault {
            7 => go(&[(x, 0)]),
            8 => x += 1,
            9 => go(&[(x - 1, 1), (x, 1)]),
            _ => unreachable!(),
        }
        x += 1;
        go(&[(x, 1)]);
    }
    list
}

/// Every list of up to three of the faults 7, 8 and 9, in every order and more than once, with the right
/// ends, a wrong first cell, a wrong last cell or both, between equal terminals too, in scratch that holds
/// anything: the lowest number is the answer, wherever its fault stands.
#[test]
fn faults_in_every_order() {
    let mut random = Random::new(0x5EED_0009);
    let mut met = Met::new();
    let more = |lists: Vec<Vec<u32>>| -> Vec<Vec<u32>> {
        lists.iter().flat_map(|l| [7, 8, 9].map(|f| [&l[..], &[f]].concat())).collect()
    };
    let one = more(vec![vec![]]);
    let two = more(one.clone());
    let three = more(two.clone());
    for faults in [vec![vec![]], one, two, three].concat() {
        let list = with_faults(&faults);
        let last = (u32::from(list[list.len() - 2]), 1);
        let different = [((1, 1), last), ((9, 2), last), ((1, 1), (9, 2)), ((9, 2), (10, 2))];
        let equal = [(1, 1), last, (9, 2)].map(|cell| (cell, cell));
        for (entry, exit) in different.into_iter().chain(equal) {
            let order = Order::new(12, 2, USUAL, entry, exit);
            let ends = (entry != (1, 1) || exit != last).then_some(11);
            let lowest = faults.iter().copied().chain(ends).min().unwrap_or(0);
            let answer = compare_judge(&order, &list, &mut dirty(&mut random, 30));
            assert_eq!(answer.refusal, lowest, "{order:?} {faults:?}");
            met.note(&order, answer);
        }
    }
    met.at_least(1, &[0, 7, 8, 9, 11]);
}
