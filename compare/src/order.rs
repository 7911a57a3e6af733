//! Orders, and the refusals that every call tests first.

use std::ops::RangeInclusive;

/// A cell: column from the left and row from the top, both from 1.
pub type Cell = (u32, u32);

/// The usual pitch, in micrometres: for orders whose pitch does not matter.
pub const USUAL: u32 = 4_000;

/// A panel of `width` columns and `height` rows, its cells' pitch in micrometres, and its two terminals.
#[derive(Clone, Copy, Debug, PartialEq, Eq)]
pub struct Order {
    pub width: u32,
    pub height: u32,
    pub pitch: u32,
    pub entry: Cell,
    pub exit: Cell,
}

/// Why a call refuses, with document 01's number, or a later request's. R-6 withdrew 4 and R-9 10, which stay
/// free; 12 to 17 and 20 to 23 are of calls that the archive does not have.
#[derive(Clone, Copy, Debug, PartialEq, Eq)]
#[repr(u32)]
pub enum Refusal {
    Side = 1,
    EntryOff = 2,
    ExitOff = 3,
    ShortBuffer = 5,
    ListLength = 6,
    CellOff = 7,
    NotNeighbours = 8,
    Repeated = 9,
    WrongEnds = 11,
    Pitch = 18,
    BenchSide = 19,
}

/// What Bound gives where it does not refuse.
#[derive(Clone, Copy, Debug, PartialEq, Eq)]
pub struct Bounded {
    pub class: u32,
    pub count: u32,
}

pub const MAX_SIDE: u32 = 128;
pub const BENCH_MAX_SIDE: u32 = 32;
pub const PITCH_RANGE: RangeInclusive<u32> = 1_000..=10_000;

impl Order {
    pub fn new(width: u32, height: u32, pitch: u32, entry: Cell, exit: Cell) -> Self {
        Order { width, height, pitch, entry, exit }
    }

    /// The same order at another pitch.
    pub fn at(&self, pitch: u32) -> Self {
        Order { pitch, ..*self }
    }

    pub fn holds(&self, (x, y): Cell) -> bool {
        (1..=self.width).contains(&x) && (1..=self.height).contains(&y)
    }

    /// The number of cells of the panel, where its sides are good.
    pub fn area(&self) -> usize {
        self.width as usize * self.height as usize
    }

    /// Refusals 1, 18, 2 and 3, in order.
    pub fn check(&self) -> Result<(), Refusal> {
        self.check_on(MAX_SIDE)
    }

    /// The bench cutter's: 1, 18, 19, 2 and 3, in order.
    pub fn check_bench(&self) -> Result<(), Refusal> {
        self.check_on(BENCH_MAX_SIDE)
    }

    /// The refusals on a bed that takes `largest` cells a side; 19 is a good side above that.
    fn check_on(&self, largest: u32) -> Result<(), Refusal> {
        let sides = 1..=MAX_SIDE;
        if !sides.contains(&self.width) || !sides.contains(&self.height) {
            return Err(Refusal::Side);
        }
        if !PITCH_RANGE.contains(&self.pitch) {
            return Err(Refusal::Pitch);
        }
        if self.width > largest || self.height > largest {
            return Err(Refusal::BenchSide);
        }
        if !self.holds(self.entry) {
            return Err(Refusal::EntryOff);
        }
        if !self.holds(self.exit) {
            return Err(Refusal::ExitOff);
        }
        Ok(())
    }
}

/// The cells of a panel, rows from the top, each from the left.
pub fn cells(width: u32, height: u32) -> impl Iterator<Item = Cell> {
    (1..=height).flat_map(move |y| (1..=width).map(move |x| (x, y)))
}

/// An order for every two cells, equal or not, of a panel.
pub fn pairs(width: u32, height: u32, pitch: u32) -> impl Iterator<Item = Order> {
    let all = move || cells(width, height);
    all().flat_map(move |entry| all().map(move |exit| Order::new(width, height, pitch, entry, exit)))
}

/// The same for every panel up to `side` by `side`.
pub fn every_pair(side: u32, pitch: u32) -> impl Iterator<Item = Order> {
    let panels = (1..=side).flat_map(move |m| (1..=side).map(move |n| (m, n)));
    panels.flat_map(move |(width, height)| pairs(width, height, pitch))
}
