//! The independent implementation on its own: its router reaches the count, its judges accept what it
//! draws, the count is the longest track's wherever a full search is short enough, equal terminals have one
//! track, and the pitch is refused where it must be and changes nothing elsewhere.

use compare::random::Random;
use compare::{bound, draw, every_pair, judge, judge_once, pairs, search, Bounded, Order, Refusal, USUAL};

fn orders(width: u32, height: u32) -> impl Iterator<Item = Order> {
    pairs(width, height, USUAL)
}

fn draws_and_accepts(order: &Order) {
    let count = bound(order).expect("a good order").count;
    let mut buffer = vec![0xA5; 2 * count as usize + 6];
    assert_eq!(draw(order, &mut buffer), Ok(count), "{order:?}");
    assert!(buffer[2 * count as usize..].iter().all(|&b| b == 0xA5));
    let mut scratch = vec![0; order.area()];
    assert_eq!(judge(order, &buffer[..2 * count as usize], &mut scratch), Ok(count), "{order:?}");
    assert_eq!(judge_once(order, &buffer[..2 * count as usize], &mut scratch), Ok(count), "{order:?}");
}

#[test]
fn the_count_is_the_longest_tracks() {
    for width in 1..=5 {
        for height in 1..=5 {
            if width * height <= 20 {
                for order in orders(width, height) {
                    assert_eq!(bound(&order).unwrap().count, search::longest(&order), "{order:?}");
                }
            }
        }
    }
}

#[test]
fn every_pair_up_to_twelve_by_twelve() {
    for width in 1..=12 {
        for height in 1..=12 {
            orders(width, height).for_each(|order| draws_and_accepts(&order));
        }
    }
}

#[test]
fn random_orders() {
    let mut random = Random::new(0x1D5E);
    for _ in 0..4_000 {
        let (width, height) = (random.within(1, 128), random.within(1, 128));
        let order = random.order(width, height, USUAL);
        draws_and_accepts(&order);
        draws_and_accepts(&Order { exit: order.entry, ..order });
    }
}

#[test]
fn equal_terminals_and_no_others_are_class_six() {
    for order in every_pair(6, USUAL) {
        let found = bound(&order).unwrap();
        assert_eq!(found.class == 6, order.entry == order.exit, "{order:?}");
        if order.entry == order.exit {
            let mut buffer = [0xA5; 4];
            assert_eq!(found, Bounded { class: 6, count: 1 }, "{order:?}");
            assert_eq!(draw(&order, &mut buffer), Ok(1), "{order:?}");
            assert_eq!(buffer, [order.entry.0 as u8, order.entry.1 as u8, 0xA5, 0xA5], "{order:?}");
            assert_eq!(draw(&order, &mut [0]), Err(Refusal::ShortBuffer), "{order:?}");
        }
    }
}

#[test]
fn lists_for_equal_terminals() {
    let order = Order::new(3, 2, USUAL, (2, 1), (2, 1));
    let lists: [(&[u8], Result<u32, Refusal>); 12] = [
        (&[2, 1], Ok(1)),
        (&[], Err(Refusal::ListLength)),
        (&[2, 1, 2], Err(Refusal::ListLength)),
        (&[2, 0], Err(Refusal::CellOff)),
        (&[2, 1, 2, 0, 2, 1], Err(Refusal::CellOff)),
        (&[2, 1, 2, 1], Err(Refusal::NotNeighbours)),
        (&[2, 1, 3, 1, 2, 1], Err(Refusal::Repeated)),
        (&[2, 1, 1, 1, 1, 2, 2, 2, 3, 2, 3, 1, 2, 1], Err(Refusal::Repeated)),
        (&[2, 2], Err(Refusal::WrongEnds)),
        (&[2, 1, 3, 1], Err(Refusal::WrongEnds)),
        (&[3, 1, 2, 1], Err(Refusal::WrongEnds)),
        (&[2, 1, 1, 1, 1, 2, 2, 2, 3, 2, 3, 1], Err(Refusal::WrongEnds)),
    ];
    for (list, verdict) in lists {
        assert_eq!(judge(&order, list, &mut [0; 6]), verdict, "{list:?}");
        assert_eq!(judge_once(&order, list, &mut [0; 6]), verdict, "{list:?}");
    }
}

#[test]
fn a_buffer_one_byte_short() {
    let order = Order::new(128, 128, USUAL, (1, 1), (1, 128));
    assert_eq!(draw(&order, &mut vec![0; 32_768]), Ok(16_384));
    assert_eq!(draw(&order, &mut vec![0; 32_767]), Err(Refusal::ShortBuffer));
}

/// All three calls refuse the order so, whatever the buffers, and write no byte.
fn all_refuse(order: &Order, refusal: Refusal) {
    assert_eq!(bound(order), Err(refusal), "{order:?}");
    for room in [0, 200] {
        let mut bytes = vec![0xA5; room];
        assert_eq!(draw(order, &mut bytes), Err(refusal), "{order:?}");
        for list in [&[][..], &[1], &[1, 1, 2, 1], &[0, 0]] {
            assert_eq!(judge(order, list, &mut bytes), Err(refusal), "{order:?}");
        }
        assert!(bytes.iter().all(|&b| b == 0xA5), "{order:?}");
    }
}

#[test]
fn the_pitch_is_refused_right_after_the_sides() {
    let faults = [
        (Order::new(0, 3, USUAL, (1, 1), (2, 1)), Refusal::Side),
        (Order::new(4, 129, USUAL, (9, 9), (9, 9)), Refusal::Side),
        (Order::new(4, 3, USUAL, (5, 1), (5, 1)), Refusal::EntryOff),
        (Order::new(4, 3, USUAL, (1, 1), (2, 0)), Refusal::ExitOff),
    ];
    for (order, refusal) in faults {
        for pitch in [1_000, USUAL, 10_000] {
            all_refuse(&order.at(pitch), refusal);
        }
        let first = if refusal == Refusal::Side { refusal } else { Refusal::Pitch };
        for pitch in [0, 999, 10_001, u32::MAX] {
            all_refuse(&order.at(pitch), first);
        }
    }
    for exit in [(2, 1), (1, 1)] {
        let good = Order::new(4, 3, USUAL, (1, 1), exit);
        assert_eq!(good.check(), Ok(()));
        for pitch in [0, 999, 10_001, u32::MAX] {
            all_refuse(&good.at(pitch), Refusal::Pitch);
        }
    }
}

#[test]
fn the_same_track_at_every_pitch() {
    let drawn = |order: &Order| {
        let mut buffer = vec![0xA5; 2 * order.area() + 6];
        (bound(order), draw(order, &mut buffer), buffer)
    };
    for order in orders(6, 5).chain(orders(5, 5)).chain(orders(3, 8)) {
        let usual = drawn(&order);
        assert!([1_000, 10_000].iter().all(|&pitch| drawn(&order.at(pitch)) == usual), "{order:?}");
    }
}
