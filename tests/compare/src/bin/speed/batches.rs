//! The batches that are salvaged.

use crate::loads::{
    bytes, cut_short, letter, load, measure_sheet, nest_of_sixteen, sheet_with_note, sized, Load,
};

/// The sheet with an EMPTY in the place of its version, which no EDT may have: met
/// with 9.
fn damaged_sheet() -> Vec<u8> {
    let mut sheet = measure_sheet();
    sheet[11] = 0xFE;
    sheet
}

/// So many sheets, of which the damaged ones stand at some places.
fn sheets(count: usize, is_damaged: impl Fn(usize) -> bool) -> Vec<u8> {
    let sheet = |at: usize| match is_damaged(at) {
        true => damaged_sheet(),
        false => measure_sheet(),
    };
    (0..count).flat_map(sheet).collect()
}

pub fn batches() -> Vec<Load> {
    let all = [of_sheets(), of_others(), of_damage()];
    all.into_iter().flatten().collect()
}

/// Of seven hundred sheets none, one, some and all are damaged, or the last is cut.
fn of_sheets() -> Vec<Load> {
    let many = |is_damaged: fn(usize) -> bool| sheets(700, is_damaged);
    vec![
        load("one measure sheet", measure_sheet()),
        load("one that is damaged", damaged_sheet()),
        load("one that is cut short", cut_short(measure_sheet())),
        load("seven hundred sheets", many(|_| false)),
        load("the first damaged", many(|at| at == 0)),
        load("one in the middle damaged", many(|at| at == 350)),
        load("the last damaged", many(|at| at == 699)),
        load("every tenth damaged", many(|at| at % 10 == 9)),
        load("every second damaged", many(|at| at % 2 == 1)),
        load("all damaged", many(|_| true)),
        load("the last cut short", cut_short(many(|_| false))),
        load("six hundred with a note", sheet_with_note().repeat(600)),
    ]
}

/// Batches of which nothing is changed.
fn of_others() -> Vec<Load> {
    vec![
        load("nothing", vec![]),
        load("64 KB of padding", vec![0xFF; 65_536]),
        load("16,384 small INTs", bytes(16_384, 0x80, 0x3F)),
        load(
            "16,384 INTs of three bytes",
            [0xE2, 0x10, 0x00].repeat(16_384),
        ),
        load("16,384 short BITS", [0xF2, 0x02, 0x53].repeat(16_384)),
        load(
            "16,383 small INTs in a STRUC",
            sized(0xC2, &bytes(16_383, 0x80, 0x3F)),
        ),
        load(
            "a note of 60,000 as USTRUC",
            sized(0xC5, &bytes(60_000, 0, 0x7F)),
        ),
        load("strings of eight", sized(0xC5, b"MESSAGES").repeat(1_820)),
        load("nests of sixteen", nest_of_sixteen().repeat(963)),
        load("a mixed message", letter().repeat(160)),
    ]
}

fn of_damage() -> Vec<Load> {
    let unassigned = sized(0xD0, &bytes(60, 0, 0xFF));
    let two_kinds = sized(0xC5, &[&bytes(60_000, 0, 0x7F)[..], &[0x80]].concat());
    vec![
        load("16,384 bits without a marker", [0xF1, 0x00].repeat(16_384)),
        load("a thousand unassigned objects", unassigned.repeat(1_000)),
        load("a note of 60,000 of two kinds", two_kinds),
        load("a rest of 64 KB dropped", vec![0xC0; 65_536]),
        load("65,536 characters, refused with 10", vec![0x41; 65_536]),
    ]
}
