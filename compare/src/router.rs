//! Draw, by document 000's section 4. A panel is cut down by strips (two rows or columns without a
//! terminal, whose Hamiltonian cycle is merged with the track through two parallel edges) and by
//! splits at one edge, until it has one or two rows or is a prime panel, which is searched.
//!
//! A track is held as an undirected graph: each cell knows the at most two cells it is linked with.
//! A strip is then merged by exchanging two edges, and no list is ever moved.

use crate::bound::class_count;
use crate::order::{Cell, Order, Refusal};

/// No link: places are numbered from 1.
const NONE: u16 = 0;

/// The links of every cell of the whole panel, row by row.
struct Links {
    width: u32,
    of: Vec<[u16; 2]>,
}

/// A rectangle of the panel, seen turned or mirrored: local (x, y), from 1, is the cell
/// origin + x * right + y * down of the panel.
#[derive(Clone, Copy)]
struct View {
    columns: u32,
    rows: u32,
    origin: (i32, i32),
    right: (i32, i32),
    down: (i32, i32),
}

impl View {
    fn whole(width: u32, height: u32) -> View {
        View {
            columns: width,
            rows: height,
            origin: (0, 0),
            right: (1, 0),
            down: (0, 1),
        }
    }

    fn turned(self) -> View {
        View {
            columns: self.rows,
            rows: self.columns,
            origin: self.origin,
            right: self.down,
            down: self.right,
        }
    }

    fn mirrored(self) -> View {
        let last = self.columns as i32 + 1;
        View {
            origin: (self.origin.0 + last * self.right.0, self.origin.1 + last * self.right.1),
            right: (-self.right.0, -self.right.1),
            ..self
        }
    }

    /// The columns from `first` to `last`.
    fn columns(self, first: u32, last: u32) -> View {
        let before = first as i32 - 1;
        View {
            columns: last + 1 - first,
            origin: (self.origin.0 + before * self.right.0, self.origin.1 + before * self.right.1),
            ..self
        }
    }

    fn mirror(self, (x, y): Cell) -> Cell {
        (self.columns + 1 - x, y)
    }

    /// The count of the longest track in this rectangle, whose own corner is (1, 1).
    fn count(self, s: Cell, t: Cell) -> u32 {
        class_count(self.columns, self.rows, s, t).count
    }

    fn cell(self, (x, y): Cell) -> Cell {
        let (x, y) = (x as i32, y as i32);
        let at = |o, r, d| (o + x * r + y * d) as u32;
        (
            at(self.origin.0, self.right.0, self.down.0),
            at(self.origin.1, self.right.1, self.down.1),
        )
    }
}

fn turn((x, y): Cell) -> Cell {
    (y, x)
}

impl Links {
    fn new(width: u32, height: u32) -> Links {
        Links { width, of: vec![[NONE; 2]; (width * height) as usize + 1] }
    }

    fn place(&self, view: View, c: Cell) -> u16 {
        let (x, y) = view.cell(c);
        ((y - 1) * self.width + x) as u16
    }

    fn attach(&mut self, from: u16, to: u16) {
        let ends = &mut self.of[usize::from(from)];
        let free = usize::from(ends[0] != NONE);
        assert_eq!(ends[free], NONE);
        ends[free] = to;
    }

    fn detach(&mut self, from: u16, to: u16) {
        let ends = &mut self.of[usize::from(from)];
        let at = usize::from(ends[0] != to);
        assert_eq!(ends[at], to);
        ends[at] = NONE;
    }

    fn join(&mut self, view: View, a: Cell, b: Cell) {
        let (a, b) = (self.place(view, a), self.place(view, b));
        self.attach(a, b);
        self.attach(b, a);
    }

    fn cut(&mut self, view: View, a: Cell, b: Cell) {
        let (a, b) = (self.place(view, a), self.place(view, b));
        self.detach(a, b);
        self.detach(b, a);
    }

    fn joined(&self, view: View, a: Cell, b: Cell) -> bool {
        let (a, b) = (self.place(view, a), self.place(view, b));
        self.of[usize::from(a)].contains(&b)
    }

    fn alone(&self, view: View, c: Cell) -> bool {
        self.of[usize::from(self.place(view, c))] == [NONE; 2]
    }

    /// Links the cells of row `y` from one column to another, either of them the larger.
    fn line(&mut self, view: View, y: u32, from: u32, to: u32) {
        for x in from.min(to)..from.max(to) {
            self.join(view, (x, y), (x + 1, y));
        }
    }
}

/// Links a longest track from s to t in the view. One cell is a track without links.
fn route(links: &mut Links, view: View, s: Cell, t: Cell) {
    if s == t {
        return;
    }
    if view.columns < view.rows {
        return route(links, view.turned(), turn(s), turn(t));
    }
    if t.0 < s.0 {
        return route(links, view, t, s);
    }
    match view.rows {
        1 => links.line(view, 1, s.0, t.0),
        2 => two_rows(links, view, s, t),
        _ if strip(links, view, s, t) || split(links, view, s, t) => {}
        _ => prime(links, view, s, t),
    }
}

/// Lemma 4.1, two rows.
fn two_rows(links: &mut Links, view: View, s: Cell, t: Cell) {
    let last = view.columns;
    let around = |links: &mut Links, end: u32, from: u32, to: u32| {
        links.line(view, s.1, from, end);
        links.join(view, (end, 1), (end, 2));
        links.line(view, 3 - s.1, end, to);
    };
    if s.0 == t.0 || s.0 + 1 == t.0 && s.1 != t.1 {
        let sum = s.0 + t.0;
        let end = if sum > 2 * last - sum + 2 { 1 } else { last };
        return around(links, end, s.0, t.0);
    }
    // From s around the columns on its left, and from t around those on its right.
    if s.0 > 1 {
        around(links, 1, s.0, s.0);
    } else {
        links.join(view, (1, 1), (1, 2));
    }
    if t.0 < last {
        around(links, last, t.0, t.0);
    } else {
        links.join(view, (last, 1), (last, 2));
    }
    // Between them a comb, whose last tooth is left out where the colours ask for it.
    let mut row = 3 - s.1;
    for x in s.0 + 1..t.0 {
        links.join(view, (x - 1, row), (x, row));
        if x + 1 < t.0 || row == t.1 {
            links.join(view, (x, 1), (x, 2));
            row = 3 - row;
        }
    }
    links.join(view, (t.0 - 1, row), (t.0, row));
}

/// Takes two columns away on the left, on the right, above or below, if the count allows it.
fn strip(links: &mut Links, view: View, s: Cell, t: Cell) -> bool {
    let turned = view.turned();
    let sides = [
        (view, s, t),
        (view.mirrored(), view.mirror(s), view.mirror(t)),
        (turned, turn(s), turn(t)),
        (turned.mirrored(), turned.mirror(turn(s)), turned.mirror(turn(t))),
    ];
    sides.into_iter().any(|(v, s, t)| strip_left(links, v, s, t))
}

/// Takes the first two columns away and merges their Hamiltonian cycle with the track of the rest.
fn strip_left(links: &mut Links, view: View, s: Cell, t: Cell) -> bool {
    if s.0 <= 2 || t.0 <= 2 {
        return false;
    }
    let rest = view.columns(3, view.columns);
    let (s, t) = ((s.0 - 2, s.1), (t.0 - 2, t.1));
    let cells = 2 * view.rows;
    if view.count((s.0 + 2, s.1), (t.0 + 2, t.1)) != rest.count(s, t) + cells {
        return false;
    }
    route(links, rest, s, t);
    let strip = view.columns(1, 2).turned();
    links.line(strip, 1, 1, view.rows);
    links.line(strip, 2, 1, view.rows);
    links.join(strip, (1, 1), (1, 2));
    links.join(strip, (view.rows, 1), (view.rows, 2));
    let row = edge_beside(links, rest).unwrap_or_else(|| free_edge(links, rest, s, t));
    links.cut(view, (2, row), (2, row + 1));
    links.cut(view, (3, row), (3, row + 1));
    links.join(view, (2, row), (3, row));
    links.join(view, (2, row + 1), (3, row + 1));
    true
}

/// A row whose first cell is linked with the one below.
fn edge_beside(links: &Links, view: View) -> Option<u32> {
    (1..view.rows).find(|&y| links.joined(view, (1, y), (1, y + 1)))
}

/// Lemma 4.2's exception: no edge of the track lies in the first column. A terminal that stands there
/// goes over the free cell beside it and not over the one behind it.
fn free_edge(links: &mut Links, view: View, s: Cell, t: Cell) -> u32 {
    for (x, y) in [s, t] {
        for beside in [y - 1, y + 1] {
            let free = x == 1
                && (1..=view.rows).contains(&beside)
                && links.alone(view, (1, beside))
                && links.joined(view, (1, y), (2, y))
                && links.joined(view, (2, y), (2, beside));
            if free {
                links.cut(view, (1, y), (2, y));
                links.cut(view, (2, y), (2, beside));
                links.join(view, (1, y), (1, beside));
                links.join(view, (1, beside), (2, beside));
                return y.min(beside);
            }
        }
    }
    unreachable!("Lemma 4.2")
}

/// Splits the panel at one edge between two columns, or two rows, if the counts add up.
fn split(links: &mut Links, view: View, s: Cell, t: Cell) -> bool {
    let (a, b) = if s.1 <= t.1 { (s, t) } else { (t, s) };
    split_columns(links, view, s, t) || split_columns(links, view.turned(), turn(a), turn(b))
}

fn split_columns(links: &mut Links, view: View, s: Cell, t: Cell) -> bool {
    let count = view.count(s, t);
    for c in s.0..t.0 {
        let left = view.columns(1, c);
        let right = view.columns(c + 1, view.columns);
        let end = (t.0 - c, t.1);
        for y in 1..=view.rows {
            let (p, q) = ((c, y), (1, y));
            if p != s && q != end && left.count(s, p) + right.count(q, end) == count {
                route(links, left, s, p);
                route(links, right, q, end);
                links.join(view, p, (c + 1, y));
                return true;
            }
        }
    }
    false
}

/// Lemmas 4.5 and 4.6: what can be neither stripped nor split is small enough to be searched.
fn prime(links: &mut Links, view: View, s: Cell, t: Cell) {
    assert!(view.columns * view.rows <= 20, "Lemma 4.4");
    let mut track = vec![s];
    let mut used = vec![false; (view.columns * view.rows) as usize];
    assert!(complete(view, t, view.count(s, t), &mut track, &mut used), "Lemma 4.6");
    for step in track.windows(2) {
        links.join(view, step[0], step[1]);
    }
}

/// Whether the track can be completed to one of `count` cells that ends at t; it then is.
fn complete(view: View, t: Cell, count: u32, track: &mut Vec<Cell>, used: &mut [bool]) -> bool {
    let at = track[track.len() - 1];
    if at == t {
        return track.len() == count as usize;
    }
    let place = ((at.1 - 1) * view.columns + at.0 - 1) as usize;
    used[place] = true;
    for next in [(at.0 + 1, at.1), (at.0 - 1, at.1), (at.0, at.1 + 1), (at.0, at.1 - 1)] {
        let inside = (1..=view.columns).contains(&next.0) && (1..=view.rows).contains(&next.1);
        if inside && !used[((next.1 - 1) * view.columns + next.0 - 1) as usize] {
            track.push(next);
            if complete(view, t, count, track, used) {
                return true;
            }
            track.pop();
        }
    }
    used[place] = false;
    false
}

/// Writes a longest track, whose cells fill `track`. No track depends on the pitch, so it is not given here.
fn write_track(width: u32, height: u32, entry: Cell, exit: Cell, track: &mut [u8]) {
    let view = View::whole(width, height);
    let mut links = Links::new(width, height);
    route(&mut links, view, entry, exit);
    let (mut before, mut at) = (NONE, links.place(view, entry));
    for cell in track.chunks_exact_mut(2) {
        let place = u32::from(at) - 1;
        cell[0] = (place % width + 1) as u8;
        cell[1] = (place / width + 1) as u8;
        let [a, b] = links.of[usize::from(at)];
        (before, at) = (at, if a == before { b } else { a });
    }
}

/// The call Draw.
pub fn draw(order: &Order, buffer: &mut [u8]) -> Result<u32, Refusal> {
    order.check()?;
    let Order { width, height, entry, exit, .. } = *order;
    let count = class_count(width, height, entry, exit).count;
    let track = buffer.get_mut(..2 * count as usize).ok_or(Refusal::ShortBuffer)?;
    write_track(width, height, entry, exit, track);
    Ok(count)
}
