//! Tables put together by hand.

/// Kind, a and b.
pub type Row = [u64; 3];

/// A table with the header that its rows and data ask for.
pub fn table(rows: &[Row], outermost: u64, data: &[u64]) -> Vec<u64> {
    let count = rows.len() as u64;
    let header = vec![count, outermost, 4 + 3 * count, data.len() as u64];
    [header, rows.concat(), data.to_vec()].concat()
}

/// A string of no characters, where no data word comes before it.
pub const EMPTY_STRING: Row = [9, 0, 0];

/// So many STRUCs one inside another, the innermost with so many elements in
/// the last rows.
pub fn nest(levels: usize, elements: u64, last: &[Row]) -> Vec<Row> {
    let rows = levels + last.len();
    let struc = |level: usize| {
        let direct = if level + 1 == levels { elements } else { 1 };
        [7, direct, (rows - 1 - level) as u64]
    };
    (0..levels).map(struc).chain(last.iter().copied()).collect()
}

/// So many STRUCs one inside another, at least one, the innermost the empty string.
pub fn chain(levels: usize) -> Vec<Row> {
    nest(levels - 1, 1, &[EMPTY_STRING])
}
