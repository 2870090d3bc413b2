//! Measure sheets, and messages like them, that would cost a careless reader much
//! time or stack, in two sizes of each shape.

use crate::hostile_messages::{hostile, Hostile, Size};
use crate::objects::{nest, repeat, repeats, sized, MOST};

/// The sheet of the workroom, seventeen bytes.
const SHEET: &[u8] = &[
    0xC3, 0x0F, 0x8C, 0x81, 0xE2, 0x12, 0x68, 0xF8, 0xE2, 0x03, 0xE8, 0xE2, 0x03, 0x20, 0xE2, 0x02,
    0x8A,
];
/// All before the figures, and the figures.
const HEAD: &[u8] = &[0x8C, 0x81, 0x87, 0xF8];
const FIGURES: &[u8] = &[0x85, 0x86, 0x87];
const REST: &[u8] = &[0x81, 0x87, 0xF8, 0x85, 0x86, 0x87];

pub fn sheets(size: Size) -> Vec<Hostile> {
    let all = [batches(size), padding(size), repeated(size), elements(size)];
    all.into_iter().flatten().collect()
}

fn edt(parts: &[&[u8]]) -> Vec<u8> {
    sized(0xC3, &parts.concat())
}

/// Many sheets are none. 2,048 of them have as many rows as there can be.
fn batches(size: Size) -> Vec<Hostile> {
    let many = |whole| SHEET.repeat(size.of(whole));
    let mut cut = many(3_800);
    cut.pop();
    vec![
        hostile("a batch of sheets", many(2_048), 20),
        hostile("a batch of too many sheets", many(3_855), 10),
        hostile("a batch cut short", cut, 2),
        hostile(
            "a batch with a fault at its end",
            [many(2_000), vec![0xC0]].concat(),
            4,
        ),
    ]
}

fn padding(size: Size) -> Vec<Hostile> {
    let padding = vec![0xFF; size.of(65_000)];
    let letters = b"MEASURE".map(|letter| [vec![0xFF; size.of(9_000)], vec![letter]].concat());
    let name = sized(0xC2, &letters.concat());
    let empty = [&[0xFE], &FIGURES[1..]].concat();
    let zero = [&[0x80], &FIGURES[1..]].concat();
    vec![
        hostile("padding before a sheet", [&padding, SHEET].concat(), 0),
        hostile("padding behind a sheet", [SHEET, &padding].concat(), 0),
        hostile("padding in a sheet", edt(&[HEAD, &padding, FIGURES]), 0),
        hostile("padding in the name", edt(&[&name, REST]), 0),
        hostile(
            "padding, and an EMPTY figure",
            edt(&[HEAD, &padding, &empty]),
            21,
        ),
        hostile(
            "padding, and a figure of 0",
            edt(&[HEAD, &padding, &zero]),
            22,
        ),
    ]
}

fn repeated(size: Size) -> Vec<Hostile> {
    let count = |whole| size.of(whole) as i64;
    let nothing = repeats(14, MOST, &vec![0xFF; size.of(60_000)]);
    let name = sized(0xC2, &repeat(count(60_000), b"M"));
    let padded = [vec![0xFF; size.of(60_000)], vec![0x85]].concat();
    vec![
        hostile(
            "16,000 figures by a repeat",
            edt(&[HEAD, &repeat(count(16_000), &[0x85])]),
            20,
        ),
        hostile(
            "16,000 EMPTYs by a repeat",
            edt(&[HEAD, &repeat(count(16_000), &[0xFE])]),
            20,
        ),
        hostile(
            "2^63 - 1 figures, fourteen deep",
            edt(&[HEAD, &repeats(14, MOST, &[0x85])]),
            10,
        ),
        hostile(
            "2^63 - 1 times padding before the figures",
            edt(&[HEAD, &nothing, FIGURES]),
            0,
        ),
        hostile(
            "three times padding and a figure",
            edt(&[HEAD, &repeat(3, &padded)]),
            0,
        ),
        hostile("60,000 Ms by a repeat as type", edt(&[&name, REST]), 20),
    ]
}

/// Elements that are long, deep or many.
fn elements(size: Size) -> Vec<Hostile> {
    let name = sized(0xC6, &b"MEASURE".repeat(size.of(9_000)));
    let deep = nest(14, 0xC2, &vec![0x85; size.of(16_000)]);
    let widest = [vec![0xC2, 0x80], vec![0; 128]].concat();
    let strings = widest.repeat(size.of(500));
    let within = edt(&[&[0x8C, 0x81], &SHEET.repeat(size.of(2_000))]);
    vec![
        hostile("a type of 63,000 characters", edt(&[&name, REST]), 20),
        hostile("INTs sixteen deep as chest", edt(&[HEAD, &deep, REST]), 20),
        hostile(
            "sizes in 128 bytes as figures",
            edt(&[HEAD, &strings, FIGURES]),
            20,
        ),
        hostile(
            "16,000 elements",
            edt(&[HEAD, &vec![0x85; size.of(16_000)]]),
            20,
        ),
        hostile("sheets in an EDT", within, 20),
    ]
}
