//! Missing bytes by size: sizes of every value in every width, with few and many
//! bytes of contents there, and size fields and integers that are cut short; each
//! outermost and inside containers. Both programs answer as a rule of a line says.

use crate::checker::Checker;
use crate::missing::{MOST, TOO_LITTLE};
use crate::objects::{nest, repeat, sized};
use crate::small_stack::{in_small_stack, report};
use crate::told;

/// Sizes around those at which something changes; 125,536 is 65,536 more than the
/// most contents that are there.
const SIZES: [u128; 33] = [
    0,
    1,
    2,
    127,
    128,
    129,
    255,
    256,
    257,
    65_535,
    65_536,
    65_537,
    125_535,
    125_536,
    125_537,
    131_070,
    131_071,
    131_072,
    131_073,
    131_074,
    (1 << 24) - 1,
    1 << 24,
    (1 << 24) + 1,
    (1 << 32) - 1,
    1 << 32,
    (1 << 32) + 1,
    (1 << 63) - 1,
    1 << 63,
    (1 << 63) + 1,
    (1 << 64) - 1,
    1 << 64,
    (1 << 64) + 1,
    (1 << 64) + 5,
];

/// Bytes of contents that are there.
const THERE: [usize; 7] = [0, 1, 2, 127, 256, 40_000, 60_000];

const OUTERMOST: [u8; 5] = [0xC1, 0xC2, 0xC3, 0xC5, 0xC6];
const INSIDE: [u8; 6] = [0xC1, 0xC2, 0xC3, 0xC4, 0xC5, 0xC6];

/// A size, and a size field that tells it.
pub struct Size {
    value: u128,
    pub field: Vec<u8>,
}

/// A size in a byte of its own, where it can be.
fn in_one_byte(value: u128) -> Option<Size> {
    let field = vec![(value % 128) as u8];
    (1..=128).contains(&value).then_some(Size { value, field })
}

/// A size in so many bytes after the first.
fn in_bytes(value: u128, digits: &[u8], width: usize) -> Size {
    let first = 0x80 + (width % 128) as u8;
    let zeros = vec![0; width - digits.len()];
    let field = [vec![first], zeros, digits.to_vec()].concat();
    Size { value, field }
}

/// A size in one byte, in the fewest after the first, and with zeros before it.
fn in_every_width(value: u128) -> Vec<Size> {
    let digits = value.to_be_bytes();
    let zeros = digits[..15].iter().take_while(|&&digit| digit == 0).count();
    let digits = &digits[zeros..];
    let widths = [digits.len(), 9, 17, 127, 128].into_iter();
    let in_more = widths.map(|width| in_bytes(value, digits, width));
    in_one_byte(value).into_iter().chain(in_more).collect()
}

/// All sizes, and 2^1016 by itself and with low bytes; the largest number here
/// stands for these two.
pub fn sizes() -> Vec<Size> {
    let most = [&[1], &[0; 127][..]].concat();
    let more = [&[1], &[0; 126][..], &[5]].concat();
    let beyond = [most, more].map(|digits| in_bytes(u128::MAX, &digits, 128));
    let others = SIZES.into_iter().flat_map(in_every_width);
    others.chain(beyond).collect()
}

/// The object at the end of containers of every kind, with bytes after them: each
/// message, and the object's place in it.
pub fn inside(object: &[u8]) -> Vec<(Vec<u8>, usize)> {
    let around = [
        sized(0xC2, object),
        sized(0xC3, &[&[0x81, 0x82], object].concat()),
        sized(0xC5, &[&[0xFF, 0xFF], object].concat()),
        sized(0xC2, &repeat(2, object)),
        nest(15, 0xC2, object),
    ];
    let after = [0x80; 300];
    let with_place = |outer: Vec<u8>| {
        let place = outer.len() - object.len();
        ([&outer[..], &after].concat(), place)
    };
    around.map(with_place).to_vec()
}

/// Reading refuses with so many missing bytes, or, where none are, with neither 2
/// nor 3.
fn due(checker: &mut Checker, message: &[u8], cut: (u64, usize), missing: u128) {
    let answer = checker.reading(message, TOO_LITTLE);
    let told = (answer.number, answer.place as usize, answer.missing);
    let same = match missing {
        0 => !matches!(answer.number, 2 | 3) && answer.missing == 0,
        _ => told == (cut.0, cut.1, missing.min(MOST.into()) as u64),
    };
    checker.must(same, || {
        format!(
            "{missing} due at {}, not {answer:?}: {}",
            cut.1,
            told::bytes(message)
        )
    });
}

/// The object outermost, alone and after others, with so many bytes missing.
fn due_outermost(checker: &mut Checker, object: &[u8], missing: u128) {
    due(checker, object, (2, 0), missing);
    let after = [&[0xFF, 0xC2, 0x01, 0x81, 0x41], object].concat();
    due(checker, &after, (2, 5), missing);
}

fn due_inside(checker: &mut Checker, object: &[u8], missing: u128) {
    for (message, place) in inside(object) {
        due(checker, &message, (3, place), missing);
    }
}

#[test]
fn of_every_size() {
    let mut checker = Checker::new();
    let sizes = sizes();
    in_small_stack(&mut checker, |checker| {
        for (size, there) in sizes
            .iter()
            .flat_map(|size| THERE.map(|there| (size, there)))
        {
            let missing = size.value.saturating_sub(there as u128);
            let object = |type_byte| [&[type_byte], &size.field[..], &vec![0xFF; there]].concat();
            for type_byte in OUTERMOST {
                due_outermost(checker, &object(type_byte), missing);
            }
            for type_byte in INSIDE {
                due_inside(checker, &object(type_byte), missing);
            }
        }
    });
    report("missing_sizes::of_every_size", sizes.len() as u64, &checker);
}

/// A size field of which bytes are wanting tells these, whatever the size would be.
#[test]
fn of_every_size_field_cut_short() {
    let mut checker = Checker::new();
    in_small_stack(&mut checker, |checker| {
        for type_byte in INSIDE {
            due_inside(checker, &[type_byte], 1);
        }
        for (width, digit) in (1..=128).flat_map(|width| [(width, 0x00), (width, 0xFF)]) {
            let whole = in_bytes(0, &vec![digit; width], width).field;
            for there in 0..width {
                let object = [&[0xC2], &whole[..1 + there]].concat();
                due_outermost(checker, &object, (width - there) as u128);
                due_inside(checker, &object, (width - there) as u128);
            }
        }
    });
    report(
        "missing_sizes::of_every_size_field_cut_short",
        128,
        &checker,
    );
}

/// LINTEGER and SBITSTR, and each LINTEGER as the length of an LBITSTR and as the
/// count of a REPEAT, also behind padding: these are 3 at their own place, in an
/// outermost LBITSTR too.
#[test]
fn of_every_fixed_length_cut_short() {
    let mut checker = Checker::new();
    in_small_stack(&mut checker, |checker| {
        for (width, there) in (1..=8).flat_map(|width| (0..width).map(move |there| (width, there)))
        {
            let missing = u128::from(width - there);
            let data = vec![0x01; there.into()];
            let object = |high: u8| [vec![high + width % 8], data.clone()].concat();
            for high in [0xE0, 0xF0] {
                due_outermost(checker, &object(high), missing);
                due_inside(checker, &object(high), missing);
            }
            leading_cut_short(checker, &object(0xE0), missing);
        }
    });
    report(
        "missing_sizes::of_every_fixed_length_cut_short",
        36,
        &checker,
    );
}

/// An integer cut short at the front of an LBITSTR or a REPEAT.
fn leading_cut_short(checker: &mut Checker, integer: &[u8], missing: u128) {
    for padding in [0, 1, 9] {
        let contents = [&vec![0xFF; padding], integer].concat();
        let bits = sized(0xC1, &contents);
        let behind = [&bits[..], &[0x80; 20]].concat();
        due(checker, &bits, (3, 2 + padding), missing);
        due(checker, &behind, (3, 2 + padding), missing);
        for leading in [bits, sized(0xC4, &contents)] {
            for (message, place) in inside(&leading) {
                due(checker, &message, (3, place + 2 + padding), missing);
            }
        }
    }
}
