//! Judge: whether a list of cells is a track from entry to exit. Once as the demands are written, each
//! test over the whole list before the next; and once in one pass, to be timed beside it.

use crate::order::{Order, Refusal};

fn wide(&[x, y]: &[u8; 2]) -> (u32, u32) {
    (u32::from(x), u32::from(y))
}

/// The last refusal of the cells, then their number.
fn judge_ends(order: &Order, cells: &[[u8; 2]]) -> Result<u32, Refusal> {
    if cells.first().map(wide) != Some(order.entry) || cells.last().map(wide) != Some(order.exit) {
        return Err(Refusal::WrongEnds);
    }
    Ok(cells.len() as u32)
}

/// The refusals of the cells, in order; `marks` has one byte of 0 for each cell of the panel.
fn judge_cells(order: &Order, cells: &[[u8; 2]], marks: &mut [u8]) -> Result<u32, Refusal> {
    if !cells.iter().all(|c| order.holds(wide(c))) {
        return Err(Refusal::CellOff);
    }
    let neighbours = |a: [u8; 2], b: [u8; 2]| {
        u32::from(a[0].abs_diff(b[0])) + u32::from(a[1].abs_diff(b[1])) == 1
    };
    if !cells.windows(2).all(|pair| neighbours(pair[0], pair[1])) {
        return Err(Refusal::NotNeighbours);
    }
    for (x, y) in cells.iter().map(wide) {
        let mark = &mut marks[((y - 1) * order.width + (x - 1)) as usize];
        if *mark != 0 {
            return Err(Refusal::Repeated);
        }
        *mark = 1;
    }
    judge_ends(order, cells)
}

/// The same in one pass, which only a cell off the panel ends. Of the forms that were tried, this is the
/// one that the compiler makes fastest.
fn walk_cells(order: &Order, cells: &[[u8; 2]], marks: &mut [u8]) -> Result<u32, Refusal> {
    let (mut last_x, mut last_y) = (0, 0);
    let mut jump = false;
    let mut twice = 0;
    for (i, &[x, y]) in cells.iter().enumerate() {
        let (x, y) = (u32::from(x), u32::from(y));
        if x < 1 || order.width < x || y < 1 || order.height < y {
            return Err(Refusal::CellOff);
        }
        let mark = &mut marks[(y as usize - 1) * (order.width as usize) + (x as usize - 1)];
        twice |= *mark;
        *mark = 1;
        let (dx, dy) = (x as i32 - last_x as i32, y as i32 - last_y as i32);
        if dx * dx + dy * dy != 1 && i != 0 {
            jump = true;
        }
        (last_x, last_y) = (x, y);
    }
    if jump {
        return Err(Refusal::NotNeighbours);
    }
    if twice != 0 {
        return Err(Refusal::Repeated);
    }
    judge_ends(order, cells)
}

/// The call Judge, with the tests of its cells as a function.
fn judge_by(
    test: impl Fn(&Order, &[[u8; 2]], &mut [u8]) -> Result<u32, Refusal>,
    order: &Order,
    list: &[u8],
    scratch: &mut [u8],
) -> Result<u32, Refusal> {
    order.check()?;
    let (cells, odd) = list.as_chunks::<2>();
    if cells.is_empty() || !odd.is_empty() {
        return Err(Refusal::ListLength);
    }
    let marks = scratch.get_mut(..order.area()).ok_or(Refusal::ShortBuffer)?;
    marks.fill(0);
    let verdict = test(order, cells, marks);
    marks.fill(0);
    verdict
}

/// The call Judge.
pub fn judge(order: &Order, list: &[u8], scratch: &mut [u8]) -> Result<u32, Refusal> {
    judge_by(judge_cells, order, list, scratch)
}

/// The call Judge in one pass over the list.
pub fn judge_once(order: &Order, list: &[u8], scratch: &mut [u8]) -> Result<u32, Refusal> {
    judge_by(walk_cells, order, list, scratch)
}
