//! How long reading, writing and comparing take, by kind of message. To ask is to
//! write with an empty output lent; a message's table is compared with itself. To
//! measure is to read the message as a measure sheet, to salvage is to mend it, and to
//! explain is to tell why it is refused, or that it is not.

use second::{compare, explain, measure_read, measure_write, normalise, read, salvage, write};
use std::hint::black_box;
use std::time::Instant;

const ROUNDS: usize = 25;

/// A message, and what its time is told for.
struct Load {
    name: &'static str,
    unit: &'static str,
    message: Vec<u8>,
    units: usize,
}

fn load(name: &'static str, unit: &'static str, message: Vec<u8>, units: usize) -> Load {
    Load {
        name,
        unit,
        message,
        units,
    }
}

fn sized(type_byte: u8, contents: &[u8]) -> Vec<u8> {
    let size = (contents.len() as u16).to_be_bytes();
    let told = match contents.len() {
        1..=127 => vec![contents.len() as u8],
        _ => [&[0x82], &size[..]].concat(),
    };
    [vec![type_byte], told, contents.to_vec()].concat()
}

fn nest_of_sixteen() -> Vec<u8> {
    (0..16).fold(vec![0x80], |inner, _| sized(0xC2, &inner))
}

/// A letter with a few fields, as message servers exchange them.
fn letter() -> Vec<u8> {
    let date = sized(0xC3, &[0x87, 0x81, 0xE2, 0x07, 0xB8, 0x84, 0x86]);
    let from = sized(0xC5, b"JFH@MIT-DMS");
    let text = sized(0xC5, b"A mechanism is defined for use by message servers.");
    sized(0xC3, &[vec![0x85, 0x81], date, from, text].concat())
}

/// A measure sheet of seventeen bytes.
fn measure_sheet() -> Vec<u8> {
    let mut output = [0; 17];
    measure_write(4_712, 0, 1_000, 800, 650, &mut output);
    output.to_vec()
}

/// Two hundred of a message, without the last byte.
fn cut_short(message: Vec<u8>) -> Vec<u8> {
    let mut many = message.repeat(200);
    many.pop();
    many
}

/// So many letters, each with an EMPTY in the place of its version.
fn damaged(count: usize) -> Vec<u8> {
    let mut letter = letter();
    letter[3] = 0xFE;
    letter.repeat(count)
}

/// Sixteen USTRUCs, the innermost of two kinds.
fn fault_in_sixteen() -> Vec<u8> {
    (0..16).fold(vec![0x80, 0x41], |inner, _| sized(0xC5, &inner))
}

fn small_loads() -> Vec<Load> {
    vec![
        load("nothing", "message", vec![], 1),
        load(
            "three INTs in a STRUC",
            "message",
            vec![0xC2, 3, 0x81, 0x82, 0x83],
            1,
        ),
        load("letter", "message", letter(), 1),
        load("measure sheet", "message", measure_sheet(), 1),
        load("refused at once", "message", vec![0xC0], 1),
        load("fault in sixteen", "message", fault_in_sixteen(), 1),
    ]
}

/// A USTRUC of small INTs, and an EMPTY at its end.
fn late_kind() -> Vec<u8> {
    sized(0xC5, &[vec![0x8A; 64_999], vec![0xFE]].concat())
}

fn large_loads() -> Vec<Load> {
    let mixed = [0x41, 0x80, 0xFC, 0xFE].repeat(4096);
    let copied = vec![0xC2, 6, 0xC4, 4, 0xE2, 0x3F, 0xFF, 0x80];
    let copied_bits = vec![0xC2, 7, 0xC4, 5, 0xE2, 0x3F, 0xFF, 0xF1, 0x03];
    vec![
        load("padding", "byte", vec![0xFF; 65_536], 65_536),
        load("small INTs", "row", vec![0x8A; 16_384], 16_384),
        load("leaves by turns", "row", mixed, 16_384),
        load(
            "long INTs",
            "row",
            [0xE2, 0x10, 0x00].repeat(16_384),
            16_384,
        ),
        load(
            "short BITS",
            "row",
            [0xF2, 0x02, 0x53].repeat(16_384),
            16_384,
        ),
        load(
            "EMPTYs in STRUCs",
            "row",
            [0xC2, 0x01, 0xFE].repeat(8_192),
            16_384,
        ),
        load(
            "nests of sixteen",
            "row",
            nest_of_sixteen().repeat(963),
            963 * 17,
        ),
        load("INTs copied", "row", copied, 16_384),
        load("BITS copied", "row", copied_bits, 16_384),
        load("letters", "message", letter().repeat(200), 200),
        load("letters, the last cut", "message", cut_short(letter()), 200),
        load("letters, each damaged", "message", damaged(200), 200),
        load("uniform but for the last", "byte", late_kind(), 65_004),
    ]
}

/// Strings in every form, told for each character or string.
fn loads_of_strings() -> Vec<Load> {
    let by_repeat = sized(0xC2, &[0xC4, 5, 0xE3, 0x00, 0xEA, 0x60, 0x41]);
    let from_seven = sized(0xC2, b"\xC4\x0A\xE2\x21\x7BFITTING");
    let padded = sized(0xC2, &b"FIT\xFFTING\xFF\xFF".repeat(6_000));
    let nine = sized(0xC6, b"SHOULDERS");
    let copied = [&[0xC4, 14, 0xE2, 0x17, 0x0C], &nine[..]].concat();
    let by_turns = [&nine[..], &[0xF2, 0x02, 0x53]].concat().repeat(4_500);
    vec![
        load("USTRUC", "character", sized(0xC5, &[0x41; 60_000]), 60_000),
        load("STRUC", "character", sized(0xC2, &[0x41; 60_000]), 60_000),
        load("STRING", "character", sized(0xC6, &[0xC1; 60_000]), 60_000),
        load("one repeated", "character", by_repeat, 60_000),
        load("seven repeated", "character", from_seven, 59_997),
        load("with padding", "character", padded, 42_000),
        load("strings of nine", "string", nine.repeat(5_900), 5_900),
        load("strings copied", "string", sized(0xC2, &copied), 5_900),
        load("strings and BITS", "string", by_turns, 4_500),
    ]
}

/// The shortest time of a few rounds, in nanoseconds for each call.
fn shortest(calls: usize, mut call: impl FnMut()) -> f64 {
    let round = |_| {
        let start = Instant::now();
        (0..calls).for_each(|_| call());
        start.elapsed().as_nanos() as f64 / calls as f64
    };
    (0..ROUNDS).map(round).fold(f64::INFINITY, f64::min)
}

fn measure(load: &Load, calls: usize) {
    let mut table = vec![0; 65_540];
    let mut output = vec![0; 65_536];
    let message = &load.message;
    let words = read(message, &mut table).words as usize;
    let reading = shortest(calls, || {
        black_box(read(black_box(message), &mut table));
    });
    let writing = shortest(calls, || {
        black_box(write(black_box(&table[..words]), &mut output));
    });
    let asking = shortest(calls, || {
        black_box(write(black_box(&table[..words]), &mut []));
    });
    let both = shortest(calls, || {
        black_box(normalise(black_box(message), &mut table, &mut output));
    });
    let given = &table[..words];
    let comparing = shortest(calls, || {
        black_box(compare(black_box(given), black_box(given), &mut []));
    });
    let measuring = shortest(calls, || {
        black_box(measure_read(black_box(message), &mut table));
    });
    let salvaging = shortest(calls, || {
        black_box(salvage(black_box(message), &mut output, &mut table));
    });
    let explaining = shortest(calls, || {
        black_box(explain(black_box(message), 65_540, &mut table));
    });
    let times = [
        reading, writing, asking, both, comparing, measuring, salvaging, explaining,
    ];
    line(load, &times);
}

/// Times for each unit.
fn line(load: &Load, times: &[f64]) {
    let each = |time: &f64| format!(" {:9.2}", time / load.units as f64);
    let times: String = times.iter().map(each).collect();
    println!("{:24} {:9}{times}", load.name, load.unit);
}

fn main() {
    println!(
        "{:24} {:9} {:>9} {:>9} {:>9} {:>9} {:>9} {:>9} {:>9} {:>9}",
        "ns for a",
        "",
        "read",
        "write",
        "ask",
        "normalise",
        "compare",
        "measure",
        "salvage",
        "explain"
    );
    let small = small_loads().into_iter().map(|load| (load, 50_000));
    let large = large_loads().into_iter().chain(loads_of_strings());
    let large = large.map(|load| (load, 60));
    for (load, calls) in small.chain(large) {
        measure(&load, calls);
    }
    let mut output = [0; 23];
    let sheet = shortest(50_000, || {
        let order = black_box(4_712);
        black_box(measure_write(order, 0, 1_000, 800, 650, &mut output));
    });
    println!("a measure sheet is written in {sheet:.2} ns");
}
