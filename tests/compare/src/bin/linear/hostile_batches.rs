//! Batches that would cost a careless salvager much time or stack, in two sizes of
//! each shape.

use crate::hostile_messages::Size;
use crate::objects::{nest, repeats, sized, MOST};

/// What makes a batch hard, the batch, and what is due in ample room: the number, and
/// how many changes there are or would be.
pub struct HostileBatch {
    pub name: &'static str,
    pub batch: Vec<u8>,
    pub number: u64,
    pub changes: usize,
}

/// The sheet of the workroom, seventeen bytes.
const SHEET: &[u8] = &[
    0xC3, 0x0F, 0x8C, 0x81, 0xE2, 0x12, 0x68, 0xF8, 0xE2, 0x03, 0xE8, 0xE2, 0x03, 0x20, 0xE2, 0x02,
    0x8A,
];
/// Bits without a marker, the shortest object that can be replaced.
const BAD_BITS: &[u8] = &[0xF1, 0x00];

pub fn batches(size: Size) -> Vec<HostileBatch> {
    let all = [
        small_changes(size),
        sheets(size),
        sizes(size),
        repeated(size),
        late_faults(size),
        dropped(size),
    ];
    all.into_iter().flatten().collect()
}

/// So many changes, with answer 0.
fn mended(name: &'static str, batch: Vec<u8>, changes: usize) -> HostileBatch {
    HostileBatch {
        name,
        batch,
        number: 0,
        changes,
    }
}

/// One that is refused with 10 where it is whole.
fn too_many(name: &'static str, batch: Vec<u8>, changes: usize, size: Size) -> HostileBatch {
    let number = if size == Size::Whole { 10 } else { 0 };
    HostileBatch {
        number,
        ..mended(name, batch, changes)
    }
}

/// As many changes as there can be.
fn small_changes(size: Size) -> Vec<HostileBatch> {
    let many = |object: &[u8], whole| object.repeat(size.of(whole));
    let padded = [&[0xFF; 30], BAD_BITS].concat();
    let turns = [BAD_BITS, &[0x80, 0xC7, 1, 0x80, 0x41, 0xC3, 1, 0x80]].concat();
    vec![
        mended(
            "bits without a marker",
            many(BAD_BITS, 16_384),
            size.of(16_384),
        ),
        too_many(
            "too many of them",
            many(BAD_BITS, 32_768),
            size.of(32_768),
            size,
        ),
        mended(
            "unassigned objects of no bytes",
            many(&[0xC7, 0x81, 0x00], 16_384),
            size.of(16_384),
        ),
        mended(
            "damage between padding",
            many(&padded, 2_000),
            size.of(2_000),
        ),
        mended("damage by turns", many(&turns, 3_200), 3 * size.of(3_200)),
        mended("nothing but padding", vec![0xFF; size.of(65_536)], 0),
        too_many(
            "damage before too many characters",
            [BAD_BITS, &many(&[0x41], 65_532)].concat(),
            1,
            size,
        ),
    ]
}

fn sheets(size: Size) -> Vec<HostileBatch> {
    let mut bad = SHEET.to_vec();
    bad[3] = 0xFE;
    // One byte more is told than the sheet has, so that it takes the next type-byte.
    let mut greedy = SHEET.to_vec();
    greedy[1] += 1;
    let many = |objects: &[&[u8]], whole| objects.concat().repeat(size.of(whole));
    vec![
        mended("a sound batch of sheets", many(&[SHEET], 2_048), 0),
        too_many(
            "damage before too many sheets",
            [BAD_BITS, &many(&[SHEET], 3_852)].concat(),
            1,
            size,
        ),
        mended(
            "every second sheet damaged",
            many(&[SHEET, &bad], 1_800),
            size.of(1_800),
        ),
        mended("every sheet damaged", many(&[&bad], 3_855), size.of(3_855)),
        mended(
            "sheets that take a byte of the next",
            many(&[&greedy, SHEET], 1_000),
            size.of(1_000),
        ),
    ]
}

/// Sizes in as many bytes as there can be, and of as much as there is.
fn sizes(size: Size) -> Vec<HostileBatch> {
    let widest = |type_byte| [vec![type_byte, 0x80], vec![0; 128]].concat();
    let fault_first = [vec![0xC0], vec![0x80; size.of(65_000)]].concat();
    vec![
        mended(
            "unassigned objects with sizes in 128 bytes",
            widest(0xDF).repeat(size.of(500)),
            size.of(500),
        ),
        mended(
            "EDTs with sizes in 128 bytes",
            widest(0xC3).repeat(size.of(500)),
            size.of(500),
        ),
        mended("a fault at the start of one", sized(0xC2, &fault_first), 1),
        mended("one unassigned object", sized(0xC7, &fault_first), 1),
    ]
}

/// Objects over the limits alone, and outermost REPEATs.
fn repeated(size: Size) -> Vec<HostileBatch> {
    let endless = sized(0xC2, &repeats(15, MOST, &[0x80]));
    let nothing = sized(0xC2, &repeats(15, MOST, &[]));
    let outermost = repeats(15, MOST, &[]);
    let late = sized(0xC2, &[&repeats(14, MOST, &[0x80])[..], &[0xC0]].concat());
    let many = |object: &[u8]| object.repeat(size.of(280));
    vec![
        mended("2^63 - 1 INTs, many times", many(&endless), size.of(280)),
        mended("2^63 - 1 times nothing, many times", many(&nothing), 0),
        mended(
            "outermost REPEATs, fifteen deep",
            many(&outermost),
            size.of(280),
        ),
        mended("a fault behind 2^63 - 1 INTs", many(&late), size.of(280)),
    ]
}

/// Faults that are met at the end of an object.
fn late_faults(size: Size) -> Vec<HostileBatch> {
    let ints = vec![0x80; size.of(60_000)];
    let two_kinds = sized(0xC5, &[&ints[..], &[0x41]].concat());
    let reserved = sized(0xC2, &[&ints[..], &[0xC0]].concat());
    let deep = nest(15, 0xC2, &[&[0x80; 40][..], &[0xE8]].concat());
    let too_deep = nest(17, 0xC2, &[0x80]);
    let padded = sized(0xC3, &[vec![0xFF; 600], vec![0x81]].concat());
    let bits = sized(0xC1, &[vec![0xFF; 40], vec![0x81]].concat());
    vec![
        mended("two kinds at the end of one", two_kinds, 1),
        mended("a reserved byte at the end of one", reserved, 1),
        mended(
            "a fault fifteen deep",
            deep.repeat(size.of(900)),
            size.of(900),
        ),
        mended(
            "seventeen deep",
            too_deep.repeat(size.of(1_800)),
            size.of(1_800),
        ),
        mended(
            "EDTs of padding and an INT",
            padded.repeat(size.of(108)),
            size.of(108),
        ),
        mended(
            "padding before damaged lengths",
            bits.repeat(size.of(1_500)),
            size.of(1_500),
        ),
    ]
}

/// The rest is dropped, at once or at the end.
fn dropped(size: Size) -> Vec<HostileBatch> {
    let behind = |rest: &[u8]| [&SHEET.repeat(size.of(2_000)), rest].concat();
    let before = |rest: &[u8]| [rest, &SHEET.repeat(size.of(3_800))].concat();
    let beyond = [vec![0xC2, 0x80, 0x01], vec![0; 127]].concat();
    let bad = BAD_BITS.repeat(size.of(16_000));
    vec![
        mended("a rest dropped at once", before(&[0xC0]), 1),
        mended("a size of 2^1016 at once", before(&beyond), 1),
        mended("a sheet cut short at the end", behind(&SHEET[..16]), 1),
        mended("a size of 2^1016 at the end", behind(&beyond), 1),
        mended(
            "damage, and a cut size field",
            [&bad, &[0xDF, 0x80][..]].concat(),
            size.of(16_000) + 1,
        ),
    ]
}
