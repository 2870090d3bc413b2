//! Messages made by chance: mostly right, in every form that reading allows.

use crate::chance::Chance;

/// A run of objects inside `inside` containers.
pub fn run(chance: &mut Chance, inside: usize) -> Vec<u8> {
    let most = if inside == 0 { 6 } else { 5 };
    let count = chance.below(most);
    (0..count).flat_map(|_| object(chance, inside)).collect()
}

fn object(chance: &mut Chance, inside: usize) -> Vec<u8> {
    let made = match chance.below(16) {
        0 => vec![0xFF; chance.below(20)],
        1 => vec![chance.below(128) as u8; chance.below(20)],
        2 => vec![0x80 + chance.below(64) as u8; chance.below(20)],
        3 => vec![chance.pick(&[0xF8, 0xF9, 0xFA, 0xFB, 0xFC, 0xFD, 0xFE, 0xFF])],
        4 | 5 => integer(chance),
        6 => short_bits(chance),
        7 => long_bits(chance),
        8 => {
            let length = chance.below(28);
            let characters = chance.bytes(length);
            sized(chance, 0xC6, &characters)
        }
        9 | 10 if inside > 0 => {
            let pattern = run(chance, inside + 1);
            repeat(chance, &pattern)
        }
        11 => edt(chance, inside),
        12 => {
            let contents = strucs(chance, inside + 1);
            sized(chance, 0xC5, &contents)
        }
        13 => string(chance, inside),
        _ => {
            let type_byte = chance.pick(&[0xC2, 0xC2, 0xC5]);
            let contents = run(chance, inside + 1);
            sized(chance, type_byte, &contents)
        }
    };
    if chance.once_in(400) {
        return chance.bytes(3);
    }
    made
}

/// A LINTEGER or SINTEGER, often longer than it need be.
pub fn integer(chance: &mut Chance) -> Vec<u8> {
    if chance.once_in(2) {
        return vec![0x80 + chance.below(64) as u8];
    }
    let width = 1 + chance.below(8);
    let high = chance.pick(&[0x00, 0x00, 0x7F, 0x80, 0xFF]);
    let mut data = vec![high; width];
    let low = chance.below(width);
    data[low..].copy_from_slice(&chance.bytes(width - low));
    [vec![0xE0 + (width % 8) as u8], data].concat()
}

fn short_bits(chance: &mut Chance) -> Vec<u8> {
    let width = 1 + chance.below(8);
    let mut data = chance.bytes(width);
    data[0] = data[0].max(1);
    [vec![0xF0 + (width % 8) as u8], data].concat()
}

fn long_bits(chance: &mut Chance) -> Vec<u8> {
    let bits = chance.pick(&[0, 1, 7, 8, 63, 64, 65, 127, 128, 129, 500]);
    let length = match bits {
        0..=63 if chance.once_in(2) => vec![0x80 + bits as u8],
        _ => [&[0xE3, 0], &(bits as u16).to_be_bytes()[..]].concat(),
    };
    let padding = vec![0xFF; if chance.once_in(3) { 2 } else { 0 }];
    let stream = chance.bytes(usize::div_ceil(bits, 8));
    let contents = [padding, length, stream].concat();
    sized(chance, 0xC1, &contents)
}

/// A string as STRUC or USTRUC: characters, padding and repeats of these, also of
/// count 0, where the pattern may be anything.
pub fn string(chance: &mut Chance, inside: usize) -> Vec<u8> {
    let contents = characters(chance, inside + 1);
    let type_byte = chance.pick(&[0xC2, 0xC5]);
    sized(chance, type_byte, &contents)
}

fn characters(chance: &mut Chance, inside: usize) -> Vec<u8> {
    let mut made = Vec::new();
    for _ in 0..chance.below(6) {
        let part = match chance.below(8) {
            0 => vec![0xFF; chance.below(12)],
            1 if inside < 16 => {
                let never = run(chance, inside + 1);
                let contents = [vec![0x80], never].concat();
                sized(chance, 0xC4, &contents)
            }
            2 | 3 if inside < 16 => {
                let pattern = characters(chance, inside + 1);
                repeat(chance, &pattern)
            }
            _ => {
                let length = chance.below(20);
                let bytes = chance.bytes(length);
                bytes.iter().map(|byte| byte % 128).collect()
            }
        };
        made.extend(part);
    }
    made
}

fn edt(chance: &mut Chance, inside: usize) -> Vec<u8> {
    let first = match chance.below(3) {
        0 => vec![0xC6, 0x02, 0x41, 0x42],
        1 => vec![0xC2, 0x81, 0x00],
        _ => integer(chance),
    };
    let second = if chance.once_in(20) {
        vec![0xFE]
    } else {
        integer(chance)
    };
    let contents = [first, second, run(chance, inside + 1)].concat();
    sized(chance, 0xC3, &contents)
}

/// Strings and other STRUCs inside `inside` containers, some of them repeated.
fn strucs(chance: &mut Chance, inside: usize) -> Vec<u8> {
    let mut made = Vec::new();
    for _ in 0..=chance.below(4) {
        let struc = struc(chance, inside);
        let repeated = chance.once_in(5);
        made.extend(match repeated {
            true => repeat(chance, &struc),
            false => struc,
        });
    }
    made
}

fn struc(chance: &mut Chance, inside: usize) -> Vec<u8> {
    let (type_byte, contents) = match chance.below(3) {
        0 => (0xC2, run(chance, inside + 1)),
        1 => (chance.pick(&[0xC2, 0xC5]), integer(chance)),
        _ => {
            let length = chance.below(4);
            (chance.pick(&[0xC2, 0xC5, 0xC6]), vec![0x41; length])
        }
    };
    sized(chance, type_byte, &contents)
}

fn repeat(chance: &mut Chance, pattern: &[u8]) -> Vec<u8> {
    let count = match chance.below(100) {
        0 => vec![0xE0, 0x7F, 0xFF, 0xFF, 0xFF, 0xFF, 0xFF, 0xFF, 0xFF],
        1 => vec![0xE2, 0x01, 0x00],
        2 => integer(chance),
        3 => vec![0xFE],
        _ => vec![chance.pick(&[0x80, 0x81, 0x82, 0x83, 0x85])],
    };
    let padding = vec![0xFF; if chance.once_in(5) { 3 } else { 0 }];
    let contents = [&padding, &count, pattern].concat();
    sized(chance, 0xC4, &contents)
}

/// An object with its size in one of the ways that a size can be told.
pub fn sized(chance: &mut Chance, type_byte: u8, contents: &[u8]) -> Vec<u8> {
    let size = contents.len();
    let wrong = if chance.once_in(300) { 1 } else { 0 };
    let told = match size + wrong {
        128 => vec![0x00],
        told @ 1..=127 if !chance.once_in(6) => vec![told as u8],
        told => {
            let wider = if chance.once_in(20) {
                chance.below(120)
            } else {
                0
            };
            let field = [vec![0; wider], (told as u32).to_be_bytes().to_vec()].concat();
            [vec![0x80 + field.len() as u8], field].concat()
        }
    };
    [vec![type_byte], told, contents.to_vec()].concat()
}

/// The same message with one or two changes by chance.
pub fn changed(chance: &mut Chance, message: &[u8]) -> Vec<u8> {
    let mut message = message.to_vec();
    for _ in 0..=chance.below(2) {
        let at = chance.below(message.len() + 1);
        match chance.below(4) {
            0 => message.truncate(at),
            1 => message.insert(at, chance.word() as u8),
            _ if at == message.len() => message.push(0xFF),
            2 => drop(message.remove(at)),
            _ => message[at] = chance.word() as u8,
        }
    }
    message
}
