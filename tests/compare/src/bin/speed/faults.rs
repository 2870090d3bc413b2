//! The messages whose reading is explained.

use crate::loads::{bytes, cut_short, measure_sheet, nest_of_sixteen, repeat, sized, Given, Load};

/// As many words as every table may need.
const AMPLE: u64 = 65_540;
/// The largest count of a REPEAT.
const MOST: [u8; 9] = [0xE0, 0x7F, 0xFF, 0xFF, 0xFF, 0xFF, 0xFF, 0xFF, 0xFF];

/// A message to explain as read with so many words.
fn with(name: &'static str, message: Vec<u8>, words: u64) -> Load {
    Load {
        name,
        given: Given::Explained(message, words),
    }
}

fn fault(name: &'static str, message: Vec<u8>) -> Load {
    with(name, message, AMPLE)
}

/// The measure sheet with another byte at a place: a reserved one for the unit, bits
/// without a marker for the order number, a USTRUC of several kinds for the EDT, and an
/// EMPTY for the version.
fn damaged(at: usize, byte: u8) -> Vec<u8> {
    let mut sheet = measure_sheet();
    sheet[at] = byte;
    sheet
}

fn reserved() -> Vec<u8> {
    damaged(21, 0xC0)
}

fn no_marker() -> Vec<u8> {
    damaged(12, 0xF0)
}

fn several_kinds() -> Vec<u8> {
    damaged(0, 0xC5)
}

fn no_version() -> Vec<u8> {
    damaged(11, 0xFE)
}

pub fn faults() -> Vec<Load> {
    let all = [of_one_sheet(), of_many_sheets(), of_others(), of_wants()];
    all.into_iter().flatten().collect()
}

fn of_one_sheet() -> Vec<Load> {
    vec![
        fault("one measure sheet, accepted", measure_sheet()),
        with("one, no table lent, 11", measure_sheet(), 0),
        fault("one cut short, 2", cut_short(measure_sheet())),
        fault("one with a reserved byte, 4", reserved()),
        fault("one with bits without a marker, 6", no_marker()),
        fault("one of several kinds, 8", several_kinds()),
        fault("one with an EMPTY as version, 9", no_version()),
    ]
}

/// Seven hundred sheets, of which the last is another.
fn of_many_sheets() -> Vec<Load> {
    let then = |last: Vec<u8>| [measure_sheet().repeat(699), last].concat();
    let first = [no_version(), measure_sheet().repeat(699)].concat();
    vec![
        fault("seven hundred, accepted", then(measure_sheet())),
        with("seven hundred, no table lent, 11", then(measure_sheet()), 0),
        fault("the last cut short, 2", then(cut_short(measure_sheet()))),
        fault("the last with a reserved byte, 4", then(reserved())),
        fault("the last without a bit marker, 6", then(no_marker())),
        fault("the last of several kinds, 8", then(several_kinds())),
        fault("the last with an EMPTY, 9", then(no_version())),
        fault("the first with an EMPTY, 9", first),
    ]
}

fn of_others() -> Vec<Load> {
    let small = [bytes(15_999, 0x80, 0x3F), vec![0x41]].concat();
    let note = [bytes(60_000, 0, 0x7F), vec![0x80]].concat();
    let seventeen = sized(0xC2, &nest_of_sixteen());
    let nests = [nest_of_sixteen().repeat(963), seventeen.clone()].concat();
    let nothing = (0..14).fold(vec![], |inner: Vec<u8>, _| repeat(&MOST, &inner));
    let one = (0..14).fold(vec![0x81], |inner, _| repeat(&[0x81], &inner));
    let heads = [&nothing[..], &one, &[0x41]].concat();
    let padded = |object: u8| [vec![0xFF; 65_535], vec![object]].concat();
    vec![
        fault("seventeen deep, 5", seventeen),
        fault("so behind 963 nests of sixteen, 5", nests),
        fault("16,000 INTs, the last a CHAR, 8", sized(0xC5, &small)),
        fault("60,000 of a note, then an INT, 8", sized(0xC5, &note)),
        fault("a second behind deep repeats, 9", sized(0xC3, &heads)),
        fault("64 KB of padding, then C0, 4", padded(0xC0)),
        fault("64 KB of padding, then REPEAT, 7", padded(0xC4)),
        fault("a size field cut at once, 2", vec![0xC2]),
    ]
}

fn of_wants() -> Vec<Load> {
    let endless = (0..15).fold(vec![0x80], |inner, _| repeat(&MOST, &inner));
    vec![
        fault("65,536 characters, 10", vec![0x41; 65_536]),
        fault("2^63 - 1 INTs, fifteen deep, 10", sized(0xC2, &endless)),
        fault("16,383 small INTs, accepted", small_ints()),
        with("16,383 INTs, no table lent, 11", small_ints(), 0),
        fault("65,537 bytes, 1", vec![0xFF; 65_537]),
    ]
}

fn small_ints() -> Vec<u8> {
    sized(0xC2, &bytes(16_383, 0x80, 0x3F))
}
