//! A second implementation of Bound, Draw and Judge, and of a track's letters and squares, written from the
//! demands and from the linear-time paper (document 000) alone, and a safe wrapper around the archive's
//! calls, the bench cutter's among them, and around Judge in C. The tests compare one with the other, and
//! with the program `foil`; the benchmark times them side by side.

pub mod archive;
pub mod bound;
pub mod directions;
pub mod judge;
pub mod order;
pub mod random;
pub mod router;
pub mod search;

pub use bound::bound;
pub use judge::{judge, judge_once};
pub use order::{cells, every_pair, pairs, Bounded, Cell, Order, Refusal, USUAL};
pub use router::draw;
