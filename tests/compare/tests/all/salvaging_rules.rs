//! The rules of a batch mended (Ask 6) know what is wrong.

use crate::checker::Checker;
use crate::salvaging::{are_due, Change, Mended};

/// 81, padding, a USTRUC of two kinds, padding, 82, an unassigned object, padding, and
/// a STRUC that is cut.
const MESSAGE: [u8; 15] = [
    0x81, 0xFF, 0xC5, 2, 0x81, 0x41, 0xFF, 0x82, 0xC7, 1, 0x81, 0xFF, 0xC2, 4, 0x82,
];
const OUTPUT: [u8; 7] = [0x81, 0xFF, 0xFE, 0xFF, 0x82, 0xFE, 0xFF];
const CHANGES: [Change; 3] = [[2, 4, 8], [8, 3, 4], [12, 3, 2]];

/// Whether the rules hold of this.
fn holds(message: &[u8], output: &[u8], changes: &[Change]) -> bool {
    let mended = Mended {
        output: output.to_vec(),
        changes: changes.to_vec(),
    };
    are_due(&mut Checker::new(), message, &mended)
}

fn with(at: usize, change: Change) -> Vec<Change> {
    let mut changes = CHANGES;
    changes[at] = change;
    changes.to_vec()
}

/// Changes left out, out of place, too short, too long, with other numbers, twice, out
/// of order, and of no bytes.
#[test]
fn wrong_changes() {
    assert!(holds(&MESSAGE, &OUTPUT, &CHANGES));
    let wrong = [
        vec![],
        CHANGES[..2].to_vec(),
        CHANGES[1..].to_vec(),
        with(0, [1, 5, 8]),
        with(0, [2, 4, 9]),
        with(0, [2, 4, 0]),
        with(0, [2, 3, 8]),
        with(0, [2, 5, 8]),
        with(0, [3, 4, 8]),
        with(0, [0, 6, 8]),
        with(1, [8, 7, 4]),
        with(1, [8, 3, 2]),
        with(1, [2, 4, 8]),
        with(1, [8, 0, 4]),
        with(2, [11, 4, 2]),
        with(2, [12, 2, 2]),
        with(2, [12, 3, 4]),
        with(2, [12, 4, 2]),
        vec![CHANGES[1], CHANGES[0], CHANGES[2]],
        [&CHANGES[..], &CHANGES[2..]].concat(),
    ];
    for changes in wrong {
        assert!(!holds(&MESSAGE, &OUTPUT, &changes), "{changes:?}");
    }
}

/// Bytes too few and too many: padding that is not copied, an EMPTY that is missing, or
/// stands for the rest, an object that is not replaced, or dropped with all behind it.
#[test]
fn wrong_outputs() {
    let wrong: [&[u8]; 8] = [
        &[],
        &[0x81, 0xFF, 0xFE, 0xFF, 0x82, 0xFE],
        &[0x81, 0xFF, 0xFE, 0xFF, 0x82, 0xFE, 0xFF, 0xFE],
        &[0x81, 0xFF, 0xFF, 0x82, 0xFE, 0xFF],
        &[0x81, 0xFE, 0xFF, 0x82, 0xFE, 0xFF],
        &[0x81, 0xFF, 0xFE, 0xFF, 0x82],
        &[0x81, 0xFF, 0xFF, 0xFF, 0x82, 0xFE, 0xFF],
        &[0x81, 0xFF, 0xFE, 0xFF, 0x82, 0xC7, 1, 0x81, 0xFF],
    ];
    for output in wrong {
        assert!(!holds(&MESSAGE, output, &CHANGES), "{output:02X?}");
    }
    assert!(!holds(&MESSAGE, &MESSAGE, &[]));
    let dropped = [0x81, 0xFF, 0xFE, 0xFF, 0x82];
    assert!(!holds(&MESSAGE, &dropped, &[CHANGES[0], [8, 7, 4]]));
}

/// An object inside another is not mended there, whatever comes out: bits in a STRUC,
/// which is replaced whole, and a REPEAT in one, which is sound.
#[test]
fn nothing_is_mended_inside() {
    let bits = [0xC2, 4, 0x81, 0xF1, 0x00, 0x82, 0x83];
    assert!(holds(&bits, &[0xFE, 0x83], &[[0, 6, 6]]));
    let inside = [0xC2, 4, 0x81, 0xFE, 0x82, 0x83];
    assert!(!holds(&bits, &inside, &[[3, 2, 6]]));
    let repeat = [0xC2, 4, 0xC4, 2, 0x82, 0x80, 0x81, 0x82, 0x83];
    assert!(holds(&repeat, &repeat, &[]));
    let inside = [0xC2, 4, 0xFE, 0x81, 0x82, 0x83];
    assert!(!holds(&repeat, &inside, &[[2, 4, 7]]));
}
