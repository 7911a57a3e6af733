//! Times of Bound, Draw and Judge beside the independent Rust implementation, plain loops in C that
//! write the same cells, memcpy of the same bytes, and Judge in one pass in Rust and in C. All contenders
//! of a line take turns in one run, and each one's shortest turn counts. Buffers are not cleared between.
//! Also the bench cutter's calls beside the large ones.

use compare::archive;
use compare::random::Random;
use compare::{bound, draw, judge, judge_once, Order};
use std::hint::black_box;
use std::time::Instant;

/// The pitch of every order here: the usual one.
const PITCH: u32 = 4_000;

/// A straight line of a track, as c/loops.c takes it.
#[repr(C)]
#[derive(Clone, Copy)]
struct Line {
    x: u8,
    y: u8,
    dx: i8,
    dy: i8,
    cells: u16,
}

extern "C" {
    fn loops_draw(lines: *const Line, count: usize, out: *mut u8);
}

/// An order, its track and the lines of the track.
struct Job {
    order: Order,
    track: Vec<u8>,
    lines: Vec<Line>,
}

fn lines_of(track: &[u8]) -> Vec<Line> {
    let cells: Vec<(i32, i32)> =
        track.chunks_exact(2).map(|c| (i32::from(c[0]), i32::from(c[1]))).collect();
    let step = |i: usize| (cells[i + 1].0 - cells[i].0, cells[i + 1].1 - cells[i].1);
    let mut lines = Vec::new();
    let mut first = 0;
    while first < cells.len() {
        // A line runs as long as its step stays the same; its last cell is its own.
        let (dx, dy) = if first + 1 < cells.len() { step(first) } else { (1, 0) };
        let mut last = first;
        while last + 1 < cells.len() && step(last) == (dx, dy) {
            last += 1;
        }
        lines.push(Line {
            x: cells[first].0 as u8,
            y: cells[first].1 as u8,
            dx: dx as i8,
            dy: dy as i8,
            cells: (last + 1 - first) as u16,
        });
        first = last + 1;
    }
    lines
}

fn loops(lines: &[Line], out: &mut [u8]) {
    assert!(lines.iter().map(|l| 2 * usize::from(l.cells)).sum::<usize>() <= out.len());
    // SAFETY: the lines' cells fit into out.
    unsafe { loops_draw(lines.as_ptr(), lines.len(), out.as_mut_ptr()) }
}

impl Job {
    fn new(order: Order) -> Job {
        let count = bound(&order).expect("a good order").count as usize;
        let mut track = vec![0; 2 * count];
        assert_eq!(archive::draw(&order, &mut track).count as usize, count);
        let lines = lines_of(&track);
        let mut again = vec![0; track.len()];
        loops(&lines, &mut again);
        assert!(again == track);
        Job { order, track, lines }
    }
}

/// The shortest time of each contender for one job, in nanoseconds. They take turns; a turn is short, so
/// that some turns of each fall between what else the machine does.
fn times(jobs: usize, contenders: &mut [&mut dyn FnMut()]) -> Vec<f64> {
    const TURN: f64 = 50e3;
    const SPENT: f64 = 400e6;
    let turn = |run: &mut dyn FnMut(), repeats: u32| {
        let start = Instant::now();
        (0..repeats).for_each(|_| run());
        start.elapsed().as_nanos() as f64
    };
    let mut entries: Vec<(u32, f64, f64)> = contenders
        .iter_mut()
        .map(|run| {
            let once = turn(run, 1).min(turn(run, 1)).max(1.0);
            ((TURN / once).max(1.0) as u32, f64::MAX, 0.0)
        })
        .collect();
    while entries.iter().any(|&(_, _, spent)| spent < SPENT) {
        for (run, (repeats, best, spent)) in contenders.iter_mut().zip(&mut entries) {
            if *spent < SPENT {
                let time = turn(run, *repeats);
                *best = best.min(time / f64::from(*repeats));
                *spent += time;
            }
        }
    }
    entries.iter().map(|&(_, best, _)| best / jobs as f64).collect()
}

fn time(ns: f64) -> String {
    if ns < 1_000.0 {
        format!("{ns:.1} ns")
    } else {
        format!("{:.2} µs", ns / 1_000.0)
    }
}

fn ratio(a: f64, b: f64) -> String {
    format!("{:.2}", a / b)
}

fn bench_bound(name: &str, jobs: &[Job]) {
    let t = times(
        jobs.len(),
        &mut [
            &mut || jobs.iter().for_each(|j| _ = black_box(archive::bound(black_box(&j.order)))),
            &mut || jobs.iter().for_each(|j| _ = black_box(bound(black_box(&j.order)))),
        ],
    );
    println!("| {name} | {} | {} | {} |", time(t[0]), time(t[1]), ratio(t[0], t[1]));
}

fn bench_draw(name: &str, jobs: &[Job]) -> f64 {
    let room = jobs.iter().map(|j| j.track.len()).max().unwrap();
    let buffer = || vec![0u8; room];
    let (mut a, mut b, mut c, mut d, mut e) = (buffer(), buffer(), buffer(), buffer(), buffer());
    let hot = buffer();
    let t = times(
        jobs.len(),
        &mut [
            &mut || {
                for j in jobs {
                    black_box(archive::draw(black_box(&j.order), black_box(&mut a)));
                }
            },
            &mut || {
                for j in jobs {
                    _ = black_box(draw(black_box(&j.order), black_box(&mut b)));
                }
            },
            &mut || {
                for j in jobs {
                    loops(black_box(&j.lines), black_box(&mut c));
                }
            },
            &mut || {
                for j in jobs {
                    let size = j.track.len();
                    black_box(&mut d[..size]).copy_from_slice(black_box(&j.track));
                }
            },
            &mut || {
                for j in jobs {
                    let size = j.track.len();
                    black_box(&mut e[..size]).copy_from_slice(black_box(&hot[..size]));
                }
            },
        ],
    );
    let cells = jobs.iter().map(|j| j.track.len() / 2).sum::<usize>() as f64 / jobs.len() as f64;
    let each = t[0] / cells;
    println!(
        "| {name} | {} | {each:.2} ns | {} | {} | {} | {} | {} | {} | {} | {} |",
        time(t[0]),
        time(t[1]),
        time(t[2]),
        time(t[3]),
        time(t[4]),
        ratio(t[0], t[1]),
        ratio(t[0], t[2]),
        ratio(t[0], t[3]),
        ratio(t[0], t[4])
    );
    each
}

type JudgeCall = Box<dyn Fn(&Order, &[u8], &mut [u8])>;

/// Judge and its peers: the twin as the demands are written, in one pass, and in C.
fn judges() -> Vec<(String, JudgeCall)> {
    let mut all: Vec<(String, JudgeCall)> = vec![
        ("Rattle".into(), Box::new(|o, l, s| _ = black_box(archive::judge(o, l, s)))),
        ("Rust".into(), Box::new(|o, l, s| _ = black_box(judge(o, l, s)))),
        ("Rust, one pass".into(), Box::new(|o, l, s| _ = black_box(judge_once(o, l, s)))),
    ];
    for (cc, call) in archive::judges_in_c() {
        all.push((format!("C by {cc}"), Box::new(move |o, l, s| _ = black_box(call(o, l, s)))));
    }
    all
}

fn bench_judge(name: &str, jobs: &[Job]) {
    let room = jobs.iter().map(|j| j.order.area()).max().unwrap();
    let mut runs: Vec<Box<dyn FnMut() + '_>> = Vec::new();
    for (_, call) in judges() {
        let mut marks = vec![0u8; room];
        runs.push(Box::new(move || {
            for j in jobs {
                call(&j.order, black_box(&j.track), black_box(&mut marks));
            }
        }));
    }
    let mut contenders: Vec<&mut dyn FnMut()> = Vec::new();
    for run in &mut runs {
        contenders.push(run);
    }
    let t = times(jobs.len(), &mut contenders);
    let all: Vec<String> = t.iter().map(|&t| time(t)).collect();
    let ratios: Vec<String> = t[1..].iter().map(|&peer| ratio(t[0], peer)).collect();
    println!("| {name} | {} | {} |", all.join(" | "), ratios.join(" | "));
}

fn head_of_judge() {
    let names: Vec<String> = judges().into_iter().map(|(name, _)| name).collect();
    let ratios: Vec<String> = names[1..].iter().map(|peer| format!("/ {peer}")).collect();
    println!("\nJudge, of the tracks drawn\n\n| orders | {} | {} |", names.join(" | "), ratios.join(" | "));
    println!("|{}", "---|".repeat(2 * names.len()));
}

/// The bench cutter's calls beside the large ones.
fn bench_cutter(name: &str, jobs: &[Job]) {
    let (room, area) = jobs.iter().fold((0, 0), |(r, a), j| (r.max(j.track.len()), a.max(j.order.area())));
    let (mut a, mut b) = (vec![0u8; room], vec![0u8; room]);
    let (mut c, mut d) = (vec![0u8; area], vec![0u8; area]);
    let t = times(
        jobs.len(),
        &mut [
            &mut || jobs.iter().for_each(|j| _ = black_box(archive::bound(black_box(&j.order)))),
            &mut || jobs.iter().for_each(|j| _ = black_box(archive::bench_bound(black_box(&j.order)))),
            &mut || jobs.iter().for_each(|j| _ = black_box(archive::draw(black_box(&j.order), black_box(&mut a)))),
            &mut || jobs.iter().for_each(|j| _ = black_box(archive::bench_draw(black_box(&j.order), black_box(&mut b)))),
            &mut || jobs.iter().for_each(|j| _ = black_box(archive::judge(&j.order, black_box(&j.track), black_box(&mut c)))),
            &mut || jobs.iter().for_each(|j| _ = black_box(archive::bench_judge(&j.order, black_box(&j.track), black_box(&mut d)))),
        ],
    );
    let all: Vec<String> = t.iter().map(|&t| time(t)).collect();
    println!("| {name} | {} |", all.join(" | "));
}

/// Random orders on panels whose sides a function gives. Their terminals differ: one cell is no track to time.
fn mix(seed: u64, jobs: usize, sides: impl Fn(&mut Random) -> (u32, u32)) -> Vec<Job> {
    let mut random = Random::new(seed);
    let mut found = Vec::new();
    while found.len() < jobs {
        let (width, height) = sides(&mut random);
        let order = random.order(width, height, PITCH);
        if order.entry != order.exit {
            found.push(Job::new(order));
        }
    }
    found
}

fn main() {
    let square = |side: u32| mix(0x5EED, 64, move |_| (side, side));
    let any = mix(0x5EED, 256, |r| (r.within(1, 128), r.within(1, 128)));
    let one = |entry, exit| vec![Job::new(Order::new(128, 128, PITCH, entry, exit))];
    let sizes: Vec<(String, Vec<Job>)> = [8, 32, 128]
        .map(|side| (format!("64 orders, {side} by {side}"), square(side)))
        .into_iter()
        .chain([("256 orders, any sides".to_string(), any)])
        .collect();

    println!("Bound\n\n| orders | Rattle | Rust | Rattle / Rust |\n|---|---|---|---|");
    for (name, jobs) in &sizes {
        bench_bound(name, jobs);
    }
    println!(
        "\nDraw\n\n| orders | Rattle | each cell | Rust | C loops | memcpy, own | memcpy, hot | / Rust | \
         / C loops | / memcpy, own | / memcpy, hot |\n|---|---|---|---|---|---|---|---|---|---|---|"
    );
    let each: Vec<f64> = sizes.iter().map(|(name, jobs)| bench_draw(name, jobs)).collect();
    bench_draw("128 by 128, (1,1) to (128,64)", &one((1, 1), (128, 64)));
    bench_draw("128 by 128, (128,64) to (1,1)", &one((128, 64), (1, 1)));
    bench_draw("128 by 128, (40,50) to (90,81)", &one((40, 50), (90, 81)));
    println!("\nEach cell, 128 by 128 / 32 by 32: {:.2}", each[2] / each[1]);
    head_of_judge();
    for (name, jobs) in &sizes {
        bench_judge(name, jobs);
    }
    println!(
        "\nThe bench cutter's calls beside the large ones\n\n| orders | Bound | on the bench | Draw | on the bench | \
         Judge | on the bench |\n|---|---|---|---|---|---|---|"
    );
    for (name, jobs) in &sizes[..2] {
        bench_cutter(name, jobs);
    }
}
