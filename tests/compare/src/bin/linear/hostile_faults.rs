//! Messages whose refusal would cost a careless explainer much time or stack, in two
//! sizes of each shape: one that lays repeats out, walks through repeats of nothing,
//! goes through the contents again at each of sixteen levels, or reads all again for
//! each container.

use crate::hostile_messages::Size;
use crate::objects::{integer, nest, repeat, repeats, sized, MOST};

/// What makes a message hard to explain, the message, and what is due: reading's
/// number, how many containers are open, and the code of the evidence.
pub struct HostileFault {
    pub name: &'static str,
    pub message: Vec<u8>,
    pub number: u64,
    pub containers: usize,
    pub evidence: u64,
}

/// The sheet of the workroom, seventeen bytes.
const SHEET: &[u8] = &[
    0xC3, 0x0F, 0x8C, 0x81, 0xE2, 0x12, 0x68, 0xF8, 0xE2, 0x03, 0xE8, 0xE2, 0x03, 0x20, 0xE2, 0x02,
    0x8A,
];

pub fn faults(size: Size) -> Vec<HostileFault> {
    let all = [
        ends(size),
        bytes_and_numbers(size),
        depths(size),
        kinds(size),
        kinds_behind_repeats(size),
        heads(size),
        heads_behind_repeats(size),
        wants(size),
    ];
    all.into_iter().flatten().collect()
}

fn fault(
    name: &'static str,
    message: Vec<u8>,
    (number, containers, evidence): (u64, usize, u64),
) -> HostileFault {
    HostileFault {
        name,
        message,
        number,
        containers,
        evidence,
    }
}

fn ints(size: Size, whole: usize) -> Vec<u8> {
    vec![0x80; size.of(whole)]
}

fn padding(size: Size) -> Vec<u8> {
    vec![0xFF; size.of(60_000)]
}

/// Sizes in 128 bytes around contents, at so many levels.
fn in_widest(levels: usize, contents: &[u8]) -> Vec<u8> {
    (0..levels).fold(contents.to_vec(), |inner, _| {
        let told = (inner.len() as u32).to_be_bytes();
        [&[0xC2, 0x80], &[0; 124][..], &told, &inner].concat()
    })
}

fn ends(size: Size) -> Vec<HostileFault> {
    let sheets = SHEET.repeat(size.of(3_700));
    let cut = [0xE0, 1, 2];
    let late = [&ints(size, 60_000)[..], &cut].concat();
    let beyond = [vec![0xC2, 0x80, 0x01], vec![0; 127]].concat();
    let count = [&[0xC4, 4], &[0xFF, 0xFF, 0xE2, 0x01][..]].concat();
    vec![
        fault(
            "the last sheet cut short",
            [&sheets, &SHEET[..9]].concat(),
            (2, 0, 1),
        ),
        fault(
            "a size of 2^1016 behind sheets",
            [&sheets[..], &beyond].concat(),
            (2, 0, 1),
        ),
        fault("cut sixteen deep", nest(16, 0xC2, &late), (3, 16, 1)),
        fault(
            "cut sixteen deep, sizes in 128 bytes",
            in_widest(16, &late),
            (3, 16, 1),
        ),
        fault(
            "a count cut short fifteen deep",
            nest(15, 0xC2, &[&ints(size, 60_000)[..], &count].concat()),
            (3, 16, 1),
        ),
    ]
}

fn bytes_and_numbers(size: Size) -> Vec<HostileFault> {
    let padded = |integer: &[u8]| [&padding(size)[..], integer].concat();
    let long = [&integer(MOST)[..], &vec![0; size.of(60_000)]].concat();
    let negative = [&integer(i64::MIN)[..], &vec![0x80; size.of(60_000)]].concat();
    let inside = |object: &[u8]| nest(15, 0xC2, object);
    vec![
        fault(
            "a reserved byte at the end",
            [ints(size, 65_000), vec![0xE8]].concat(),
            (4, 0, 2),
        ),
        fault(
            "the same sixteen deep",
            nest(16, 0xC5, &[ints(size, 65_000), vec![0xC0]].concat()),
            (4, 16, 2),
        ),
        fault(
            "no length behind padding",
            inside(&sized(0xC1, &padding(size))),
            (6, 15, 4),
        ),
        fault(
            "a CHAR as length behind padding",
            inside(&sized(0xC1, &padded(&[0x41]))),
            (6, 15, 2),
        ),
        fault("a bit length of 2^63 - 1", sized(0xC1, &long), (6, 0, 3)),
        fault(
            "no count behind padding",
            inside(&sized(0xC4, &padding(size))),
            (7, 15, 4),
        ),
        fault(
            "a count of -2^63",
            inside(&sized(0xC4, &negative)),
            (7, 15, 3),
        ),
        fault(
            "an outermost REPEAT behind padding",
            [padding(size), vec![0xC4]].concat(),
            (7, 0, 2),
        ),
    ]
}

fn depths(size: Size) -> Vec<HostileFault> {
    let nests = nest(16, 0xC2, &[0x80]).repeat(size.of(1_900));
    let behind_ints = (0..16).fold(vec![0xC6], |inner, _| {
        sized(0xC2, &[&ints(size, 4_000)[..], &inner].concat())
    });
    vec![
        fault(
            "seventeen deep behind nests of sixteen",
            [nests, nest(17, 0xC2, &[])].concat(),
            (5, 16, 0),
        ),
        fault("seventeen deep, INTs at each", behind_ints, (5, 16, 0)),
        fault(
            "repeats seventeen deep",
            sized(0xC2, &repeats(16, MOST, &padding(size))),
            (5, 16, 0),
        ),
    ]
}

/// A USTRUC of several kinds, of which the second comes late.
fn kinds(size: Size) -> Vec<HostileFault> {
    let late = |objects: &[u8], whole, last: &[u8]| {
        sized(0xC5, &[&objects.repeat(size.of(whole)), last].concat())
    };
    let strucs = [0xC6, 1, 0x41, 0xC2, 1, 0x81];
    let long = sized(0xC2, &ints(size, 60_000));
    let deep = nest(14, 0xC5, &late(&[0x80], 60_000, &[0x41]));
    vec![
        fault(
            "a CHAR behind INTs",
            late(&[0x80], 60_000, &[0x41]),
            (8, 0, 5),
        ),
        fault("the same inside fourteen", deep, (8, 14, 5)),
        fault(
            "an EDT behind STRUCs",
            late(&strucs, 10_000, &[0xC3, 2, 0x81, 0x81]),
            (8, 0, 5),
        ),
        fault(
            "a CHAR behind one long STRUC",
            sized(0xC5, &[&long[..], &[0x41]].concat()),
            (8, 0, 5),
        ),
        fault(
            "two kinds behind padding",
            sized(0xC5, &[padding(size), vec![0x81, 0xFE]].concat()),
            (8, 0, 5),
        ),
        fault(
            "two kinds behind sheets",
            [
                &SHEET.repeat(size.of(3_700))[..],
                &sized(0xC5, &[0x81, 0x41]),
            ]
            .concat(),
            (8, 0, 5),
        ),
    ]
}

/// Repeats before, between and around the elements.
fn kinds_behind_repeats(size: Size) -> Vec<HostileFault> {
    let ustruc = |parts: &[&[u8]]| sized(0xC5, &parts.concat());
    let most = repeats(15, MOST, &[0x80]);
    let nothing = repeats(15, MOST, &[]);
    let never = repeat(0, &repeats(14, MOST, b"A"));
    let many = |object: &[u8]| object.repeat(size.of(280));
    let inmost = repeats(15, MOST, &[&ints(size, 60_000)[..], &[0x41]].concat());
    let twos = repeats(15, 2, &[0x80, 0x41]);
    let two: &[u8] = &[0x81, 0xFE];
    vec![
        fault(
            "a CHAR behind 2^63 - 1 INTs",
            ustruc(&[&most, &[0x41]]),
            (8, 0, 5),
        ),
        fault(
            "a CHAR behind many of them",
            ustruc(&[&many(&most), &[0x41]]),
            (8, 0, 5),
        ),
        fault(
            "two kinds behind 2^63 - 1 times nothing",
            ustruc(&[&many(&nothing), two]),
            (8, 0, 5),
        ),
        fault(
            "two kinds behind no times 2^63 - 1",
            ustruc(&[&many(&never), two]),
            (8, 0, 5),
        ),
        fault(
            "an EMPTY between no times CHARs",
            ustruc(&[&[0x81], &many(&never), &[0xFE], &many(&[0x41])]),
            (8, 0, 5),
        ),
        fault(
            "two kinds inside fifteen repeats",
            ustruc(&[&inmost]),
            (8, 0, 5),
        ),
        fault(
            "two kinds 2^15 times, behind padding",
            ustruc(&[&padding(size), &twos]),
            (8, 0, 5),
        ),
    ]
}

/// An EDT without its first two elements as required.
fn heads(size: Size) -> Vec<HostileFault> {
    let edt = |parts: &[&[u8]]| sized(0xC3, &parts.concat());
    let chars = vec![0x41; size.of(60_000)];
    let no_string = sized(0xC2, &[&chars[..], &[0x81]].concat());
    let string = sized(0xC2, &chars);
    let padding = padding(size);
    let deep = nest(15, 0xC2, &edt(&[&padding, &[0x81]]));
    vec![
        fault(
            "a STRUC that is no string, by its last",
            edt(&[&no_string, &[0x81]]),
            (9, 0, 6),
        ),
        fault(
            "a CHAR behind a long string",
            edt(&[&string, &[0x41]]),
            (9, 0, 6),
        ),
        fault("nothing behind a long string", edt(&[&string]), (9, 0, 7)),
        fault("nothing but padding", edt(&[&padding]), (9, 0, 7)),
        fault("an INT behind padding, deep", deep, (9, 15, 7)),
        fault(
            "a CHAR before INTs",
            edt(&[&[0x41], &ints(size, 60_000)]),
            (9, 0, 6),
        ),
        fault(
            "an EDT behind sheets",
            [&SHEET.repeat(size.of(3_700))[..], &edt(&[&[0x81, 0x41]])].concat(),
            (9, 0, 6),
        ),
    ]
}

/// Repeats before and around its first two elements.
fn heads_behind_repeats(size: Size) -> Vec<HostileFault> {
    let edt = |parts: &[&[u8]]| sized(0xC3, &parts.concat());
    let many = |object: &[u8]| object.repeat(size.of(280));
    let nothing = repeats(15, MOST, &[]);
    let never = repeat(0, &repeats(14, MOST, &[0x80]));
    let strings = repeats(14, MOST, &sized(0xC6, b"A"));
    let inner = repeats(14, MOST, b"A");
    let long = sized(0xC2, &[&many(&inner)[..], &[0x81]].concat());
    let ones = repeats(15, 1, &[0x81]);
    vec![
        fault(
            "a CHAR behind 2^63 - 1 times nothing",
            edt(&[&[0x81], &many(&nothing), &[0x41]]),
            (9, 0, 6),
        ),
        fault("no times 2^63 - 1 INTs", edt(&[&many(&never)]), (9, 0, 7)),
        fault(
            "one INT before them",
            edt(&[&[0x81], &many(&never)]),
            (9, 0, 7),
        ),
        fault("2^63 - 1 strings", edt(&[&many(&strings)]), (9, 0, 6)),
        fault(
            "2^63 - 1 CHARs before an INT in a STRUC",
            edt(&[&long, &[0x81]]),
            (9, 0, 6),
        ),
        fault(
            "an EMPTY behind one INT, fifteen deep",
            edt(&[&padding(size), &ones, &[0xFE]]),
            (9, 0, 6),
        ),
    ]
}

/// What wants too many rows or data words, where it is whole.
fn wants(size: Size) -> Vec<HostileFault> {
    let number = match size {
        Size::Whole => 10,
        Size::Quarter => 11,
    };
    let endless = |pattern: &[u8]| sized(0xC2, &repeats(15, MOST, pattern));
    let many = |object: &[u8]| object.repeat(size.of(280));
    let notes = sized(0xC6, &[0x41; 40]).repeat(size.of(1_500));
    vec![
        fault("65,536 CHARs", vec![0x41; size.of(65_536)], (number, 0, 8)),
        fault(
            "sheets that want too many rows",
            SHEET.repeat(size.of(3_850)),
            (number, 0, 8),
        ),
        fault(
            "2^63 - 1 INTs, many times",
            many(&endless(&[0x80])),
            (10, 0, 8),
        ),
        fault(
            "2^63 - 1 CHARs, many times",
            many(&endless(b"A")),
            (10, 0, 8),
        ),
        fault("notes", notes, (11, 0, 8)),
    ]
}
