//! The archive's calls, wrapped, and beside foil_judge the same call in C, c/judge.c by gcc and by clang.

use crate::order::{Order, Refusal};

/// An answer taken apart: refusal, class and count, each 0 where there is none.
#[derive(Clone, Copy, Debug, PartialEq, Eq)]
pub struct Answer {
    pub refusal: u32,
    pub class: u32,
    pub count: u32,
}

impl Answer {
    pub fn refused(refusal: Refusal) -> Answer {
        Answer { refusal: refusal as u32, class: 0, count: 0 }
    }

    fn of(packed: u64) -> Answer {
        Answer {
            refusal: (packed >> 32) as u32,
            class: (packed >> 24) as u32 & 0xFF,
            count: packed as u32 & 0xFF_FFFF,
        }
    }
}

/// Calls a function in C that takes an order's seven numbers and then these, and answers as the archive's
/// calls do.
macro_rules! call {
    ($call:ident($order:expr $(, $name:ident: $type:ty = $value:expr)*)) => {{
        extern "C" {
            fn $call(m: u32, n: u32, pitch: u32, sx: u32, sy: u32, tx: u32, ty: u32 $(, $name: $type)*) -> u64;
        }
        let Order { width, height, pitch, entry, exit } = *$order;
        // SAFETY: beside numbers only slices are passed, which do not overlap, each as its pointer and its
        // length; the call stays within their lengths, and writes to the mutable ones only.
        Answer::of(unsafe { $call(width, height, pitch, entry.0, entry.1, exit.0, exit.1 $(, $value)*) })
    }};
}

pub fn bound(order: &Order) -> Answer {
    call!(foil_bound(order))
}

pub fn bench_bound(order: &Order) -> Answer {
    call!(foil_bench_bound(order))
}

/// foil_draw, or a call with its arguments and its promises.
macro_rules! draw {
    ($name:ident, $call:ident) => {
        pub fn $name(order: &Order, buffer: &mut [u8]) -> Answer {
            call!($call(order, buffer: *mut u8 = buffer.as_mut_ptr(), buffer_len: usize = buffer.len()))
        }
    };
}

draw!(draw, foil_draw);
draw!(bench_draw, foil_bench_draw);

/// foil_judge, or a call with its arguments and its promises.
macro_rules! judge {
    ($name:ident, $call:ident) => {
        pub fn $name(order: &Order, list: &[u8], scratch: &mut [u8]) -> Answer {
            call!($call(
                order,
                list: *const u8 = list.as_ptr(),
                list_len: usize = list.len(),
                scratch: *mut u8 = scratch.as_mut_ptr(),
                scratch_len: usize = scratch.len()
            ))
        }
    };
}

pub type Judge = fn(&Order, &[u8], &mut [u8]) -> Answer;

judge!(judge, foil_judge);
judge!(bench_judge, foil_bench_judge);
#[cfg(gcc)]
judge!(judge_gcc, judge_gcc);
#[cfg(clang)]
judge!(judge_clang, judge_clang);

/// c/judge.c by each compiler that is there.
pub fn judges_in_c() -> Vec<(&'static str, Judge)> {
    vec![
        #[cfg(gcc)]
        ("gcc", judge_gcc),
        #[cfg(clang)]
        ("clang", judge_clang),
    ]
}
