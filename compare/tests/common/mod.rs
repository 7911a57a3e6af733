//! What the tests of the archive share: random and hostile input, and a tally of the refusals met.

use compare::archive::{self, Answer};
use compare::{bound, random::Random, Cell, Order, USUAL};

/// The ends of the pitch's range and of the type, the numbers just outside the range, and the usual pitch.
pub const PITCHES: [u32; 7] = [0, 999, 1_000, USUAL, 10_000, 10_001, u32::MAX];

/// How often each refusal was met, 0 being none, and equal terminals that are not refused: a test that never
/// meets one tests less than it says.
pub struct Met {
    refusals: [u32; 20],
    spots: u32,
}

impl Met {
    pub fn new() -> Met {
        Met { refusals: [0; 20], spots: 0 }
    }

    pub fn note(&mut self, order: &Order, answer: Answer) {
        self.refusals[answer.refusal as usize] += 1;
        self.spots += u32::from(answer.refusal == 0 && order.entry == order.exit);
    }

    pub fn at_least(&self, times: u32, refusals: &[usize]) {
        for &refusal in refusals {
            let met = self.refusals[refusal];
            assert!(met >= times, "refusal {refusal} is met {met} times");
        }
    }

    pub fn spots_at_least(&self, times: u32) {
        assert!(self.spots >= times, "equal terminals are accepted {} times", self.spots);
    }
}

/// Numbers at and around the largest sides of both kinds of call, and from the ends of the types.
pub const HOSTILE: [u32; 17] = [
    0,
    1,
    31,
    32,
    33,
    127,
    128,
    129,
    255,
    256,
    257,
    65_535,
    65_536,
    0x7FFF_FFFF,
    0x8000_0000,
    u32::MAX - 1,
    u32::MAX,
];

/// One of some numbers.
pub fn any_of(random: &mut Random, numbers: &[u32]) -> u32 {
    numbers[random.below(numbers.len() as u32) as usize]
}

/// A number that is good for a side or a coordinate, or a hostile one.
pub fn number(random: &mut Random, largest: u32) -> u32 {
    match random.below(48) {
        0 => any_of(random, &HOSTILE),
        1 => largest.wrapping_add(1),
        _ => random.within(1, largest.clamp(1, 128)),
    }
}

/// A pitch within the range, or, now and then, one of those above or any number.
fn pitch(random: &mut Random) -> u32 {
    match random.below(32) {
        0 => any_of(random, &PITCHES),
        1 => random.next() as u32,
        _ => random.within(1_000, 10_000),
    }
}

/// An order on a panel of these sides, good or not: its terminals on the panel, now and then off it, or equal.
pub fn order_on(random: &mut Random, width: u32, height: u32) -> Order {
    let mut cell = || (number(random, width), number(random, height));
    let (entry, exit) = (cell(), cell());
    let exit = if random.below(64) == 0 { entry } else { exit };
    Order::new(width, height, pitch(random), entry, exit)
}

/// Bytes that hold anything.
pub fn dirty(random: &mut Random, length: usize) -> Vec<u8> {
    (0..length).map(|_| random.byte()).collect()
}

/// A length at, around or far from the one that is enough.
fn length(random: &mut Random, enough: usize) -> usize {
    match random.below(8) {
        0 => enough.saturating_sub(1),
        1 => random.below(enough as u32 + 1) as usize,
        2 => 0,
        3 => enough + 1,
        4 => enough + random.below(40) as usize,
        _ => enough,
    }
}

/// A buffer for Draw, as for the usual pitch, so that 18 meets every length too.
pub fn buffer_for(random: &mut Random, order: &Order) -> Vec<u8> {
    let enough = bound(&order.at(USUAL)).map_or(random.below(20), |b| 2 * b.count) as usize;
    let length = length(random, enough);
    dirty(random, length)
}

/// A walk of neighbours, on the panel or off it, which may come back to its own cells.
fn walk(random: &mut Random, order: &Order, cells: u32) -> Vec<u8> {
    let (mut x, mut y) = order.entry;
    let mut list = vec![x as u8, y as u8];
    for _ in 1..cells {
        let step: Cell = match random.below(4) {
            0 => (x.wrapping_add(1), y),
            1 => (x.wrapping_sub(1), y),
            2 => (x, y.wrapping_add(1)),
            _ => (x, y.wrapping_sub(1)),
        };
        if order.holds(step) || random.below(64) == 0 {
            (x, y) = step;
            list.extend([x as u8, y as u8]);
        }
    }
    list
}

/// The list with one or several faults.
fn damage(random: &mut Random, list: &mut Vec<u8>) {
    for _ in 0..random.within(1, 3) {
        let cells = (list.len() / 2) as u32;
        if cells == 0 {
            return;
        }
        let at = 2 * random.below(cells) as usize;
        match random.below(9) {
            0 => list[at] = random.byte(),
            1 => list[at + 1] ^= 1 << random.below(8),
            2 => drop(list.drain(at..at + 2)),
            3 => list.extend_from_within(at..at + 2),
            4 => list.truncate(at),
            5 => drop(list.pop()),
            6 => {
                let other = 2 * random.below(cells) as usize;
                list.swap(at, other);
                list.swap(at + 1, other + 1);
            }
            7 => drop(list.drain(..at)),
            _ => *list = list.chunks(2).rev().flatten().copied().collect(),
        }
    }
}

/// A list for Judge, a track or none, as for the usual pitch, so that 18 meets every list too.
pub fn list_for(random: &mut Random, order: &Order) -> Vec<u8> {
    let usual = order.at(USUAL);
    let mut list = match (bound(&usual), random.below(8)) {
        (_, 0) => {
            let length = random.below(24) as usize;
            dirty(random, length)
        }
        (Ok(_), 1 | 2) => {
            let cells = random.within(1, 24);
            walk(random, order, cells)
        }
        (Ok(found), _) => {
            let mut track = vec![0; 2 * found.count as usize];
            assert_eq!(archive::draw(&usual, &mut track).count, found.count);
            track
        }
        (Err(_), _) => vec![1, 1, 2, 1],
    };
    if random.below(3) != 0 {
        damage(random, &mut list);
    }
    list
}

/// Scratch for Judge, as for the usual pitch too.
pub fn scratch_for(random: &mut Random, order: &Order) -> Vec<u8> {
    let enough = if order.at(USUAL).check().is_ok() { order.area() } else { 9 };
    let length = length(random, enough);
    dirty(random, length)
}
