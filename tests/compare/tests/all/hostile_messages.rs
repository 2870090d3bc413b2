//! Messages that would cost a careless reader much time or stack, in two sizes
//! of each shape.

use crate::hostile_strings;
use crate::objects::{bits, nest, repeat, repeats, sized, MOST};

/// What makes a message hard, the message, and the number due for its reading.
pub struct Hostile {
    pub name: &'static str,
    pub message: Vec<u8>,
    pub number: u64,
}

/// How long the messages are.
#[derive(Clone, Copy, PartialEq, Eq)]
pub enum Size {
    /// As long as they get.
    Whole,
    /// A quarter of that, where the shape allows. The number due may differ.
    Quarter,
}

impl Size {
    pub fn of(self, whole: usize) -> usize {
        match self {
            Size::Whole => whole,
            Size::Quarter => whole / 4,
        }
    }

    /// So many levels, each of which doubles what is inside.
    pub fn levels(self, whole: usize) -> usize {
        match self {
            Size::Whole => whole,
            Size::Quarter => whole - 2,
        }
    }
}

pub fn hostile(name: &'static str, message: Vec<u8>, number: u64) -> Hostile {
    Hostile {
        name,
        message,
        number,
    }
}

pub fn messages(size: Size) -> Vec<Hostile> {
    let all = [
        counts(size),
        copies(size),
        depths(size),
        fields(size),
        cut_short(size),
        hostile_strings::messages(size),
    ];
    all.into_iter().flatten().collect()
}

/// Counts that no table could hold.
fn counts(size: Size) -> Vec<Hostile> {
    let most = |levels, pattern: &[u8]| sized(0xC2, &repeats(levels, MOST, pattern));
    let never = repeat(0, &repeats(14, MOST, &[0x80]));
    let many = |message: Vec<u8>| message.repeat(size.of(280));
    let padding = vec![0xFF; size.of(60_000)];
    vec![
        hostile("2^63 - 1 times an INT, fifteen deep", most(15, &[0x80]), 10),
        hostile("2^63 - 1 times nothing, fifteen deep", most(15, &[]), 0),
        hostile("2^63 - 1 times an INT, sixteen deep", most(16, &[0x80]), 5),
        hostile("no times an INT, fifteen deep", sized(0xC2, &never), 0),
        hostile(
            "2^63 - 1 times bits, fifteen deep",
            most(15, &bits(size.of(6_400))),
            10,
        ),
        hostile(
            "2^63 - 1 times padding, fifteen deep",
            most(15, &padding),
            0,
        ),
        hostile("many of 2^63 - 1 times an INT", many(most(15, &[0x80])), 10),
        hostile("many of 2^63 - 1 times nothing", many(most(15, &[])), 0),
    ]
}

/// Repeats with much to lay out or much to pass over.
fn copies(size: Size) -> Vec<Hostile> {
    let struc = |contents: &[u8]| sized(0xC2, contents);
    let twos = |levels| struc(&repeats(size.levels(levels), 2, &[0x80]));
    let count = |whole| size.of(whole) as i64;
    let padded = [vec![0xFF; size.of(60_000)], vec![0x80]].concat();
    let little = repeat(count(16_000), &padded);
    let three_rows = repeat(count(4_096), &[0xF1, 3, 0xF1, 1, 0x80]);
    let least = [0xE0, 0x80, 0, 0, 0, 0, 0, 0, 0];
    vec![
        hostile("twice an INT, fourteen deep", twos(14), 10),
        hostile("twice an INT, thirteen deep", twos(13), 0),
        hostile("16,000 times padding and an INT", struc(&little), 0),
        hostile(
            "that inside fourteen repeats",
            struc(&repeats(14, 1, &little)),
            0,
        ),
        hostile("4,096 times three rows with bits", struc(&three_rows), 0),
        hostile(
            "16,000 times an INT of eight bytes",
            struc(&repeat(count(16_000), &least)),
            0,
        ),
    ]
}

fn depths(size: Size) -> Vec<Hostile> {
    let deep = |contents: &[u8]| nest(15, 0xC2, contents);
    let inmost = |type_byte, contents: &[u8]| deep(&sized(type_byte, contents));
    let small_nests = deep(&[0xC2, 0x01, 0x80].repeat(300)).repeat(size.of(26));
    let nests = |whole| nest(16, 0xC2, &[0x80]).repeat(size.of(whole));
    let ints = |whole| vec![0x80; size.of(whole)];
    vec![
        hostile(
            "65,000 padding sixteen deep",
            inmost(0xC2, &vec![0xFF; size.of(65_000)]),
            0,
        ),
        hostile(
            "a string sixteen deep",
            inmost(0xC6, &vec![0x41; size.of(65_000)]),
            0,
        ),
        hostile(
            "INTs sixteen deep",
            inmost(0xC2, &[0xE1, 0x40].repeat(size.of(16_300))),
            0,
        ),
        hostile("small nests fifteen deep", small_nests, 0),
        hostile("nests of sixteen", nests(963), 0),
        hostile("too many nests of sixteen", nests(1_900), 10),
        hostile("a fault at the end", [ints(65_535), vec![0xC0]].concat(), 4),
        hostile(
            "two kinds at the end",
            sized(0xC5, &[ints(60_000), vec![0x41]].concat()),
            8,
        ),
    ]
}

/// Sizes in as many bytes as there can be, and types by turns.
fn fields(size: Size) -> Vec<Hostile> {
    let widest = [vec![0xC2, 0x80], vec![0; 128]].concat();
    let padded = sized(0xC1, &[vec![0xFF; 40], vec![0x81, 0x80]].concat());
    let turns = [0xFF, 0x80, 0x41, 0xFE, 0xE1, 0x40, 0xF1, 0x01];
    vec![
        hostile("sizes in 128 bytes", widest.repeat(size.of(500)), 0),
        hostile("padding before lengths", padded.repeat(size.of(1_400)), 0),
        hostile("objects by turns", turns.repeat(size.of(2_730)), 0),
    ]
}

/// The last object lacks bytes: its size field is cut short, its size is beyond
/// every room, or it passes the end of a container.
fn cut_short(size: Size) -> Vec<Hostile> {
    let widest = [vec![0xC2, 0x80], vec![0; 128]].concat();
    let beyond = [vec![0xC2, 0x80, 0x01], vec![0; 127]].concat();
    let sizes = |last: &[u8]| [&widest.repeat(size.of(500)), last].concat();
    let padding = vec![0xFF; size.of(65_000)];
    let nests = nest(16, 0xC2, &[0x80]).repeat(size.of(960));
    vec![
        hostile("a size field cut short", sizes(&widest[..129]), 2),
        hostile("a size of 2^1016", sizes(&beyond), 2),
        hostile(
            "a size of 2^1016 sixteen deep",
            nest(15, 0xC2, &[padding, beyond].concat()),
            3,
        ),
        hostile(
            "the last nest cut short",
            [nests, nest(16, 0xC2, &[0xE2, 0x01])].concat(),
            3,
        ),
    ]
}
