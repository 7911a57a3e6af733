//! What `foil` prints of a track, by the direction of each of its steps: the letters of document 01, and
//! the squares of R-4 added up cell by cell.

/// How far each step of a list of cells goes in x and in y.
fn steps(list: &[u8]) -> Vec<(i16, i16)> {
    let apart = |from: u8, to: u8| i16::from(to) - i16::from(from);
    let cells: Vec<&[u8]> = list.chunks_exact(2).collect();
    cells.windows(2).map(|pair| (apart(pair[0][0], pair[1][0]), apart(pair[0][1], pair[1][1]))).collect()
}

/// A letter for each step of a list of neighbours.
pub fn letters(list: &[u8]) -> String {
    let letter = |step| match step {
        (0, -1) => 'N',
        (1, 0) => 'E',
        (0, 1) => 'S',
        (-1, 0) => 'W',
        _ => panic!("no step between neighbours: {step:?}"),
    };
    steps(list).into_iter().map(letter).collect()
}

/// The squares of a track, in hundredths: 100 for each of its ends, which are one in a track of one cell, and
/// for a cell between them 100 if the direction stays there, 56 if it changes.
pub fn squares(list: &[u8]) -> u32 {
    let steps = steps(list);
    let ends = if steps.is_empty() { 100 } else { 200 };
    let between = |pair: &[(i16, i16)]| if pair[0] == pair[1] { 100 } else { 56 };
    ends + steps.windows(2).map(between).sum::<u32>()
}
