//! The messages that are measured. One that is refused has no table to write.

/// A name, and what is given.
pub struct Load {
    pub name: &'static str,
    pub given: Given,
}

pub enum Given {
    Message(Vec<u8>),
    /// Two tables to compare.
    Tables(Vec<u64>, Vec<u64>),
    /// A measure sheet to write, and the bytes lent to it.
    Sheet(Sheet, usize),
    /// A message to explain, and the words of the table that is asked about.
    Explained(Vec<u8>, u64),
}

/// What a measure sheet is to say: its figures are chest, waist and sleeve.
#[derive(Clone, Copy, Default)]
pub struct Sheet {
    pub order: i64,
    pub unit: u64,
    pub figures: [u64; 3],
}

pub fn sized(type_byte: u8, contents: &[u8]) -> Vec<u8> {
    let size = contents.len();
    let told = match size {
        1..=127 => vec![size as u8],
        _ => vec![0x82, (size >> 8) as u8, size as u8],
    };
    [vec![type_byte], told, contents.to_vec()].concat()
}

/// A REPEAT with a count, an integer object, and a pattern.
pub fn repeat(count: &[u8], pattern: &[u8]) -> Vec<u8> {
    sized(0xC4, &[count, pattern].concat())
}

/// Bytes that differ from one another, all with these high bits.
pub fn bytes(count: usize, high: u8, low: u8) -> Vec<u8> {
    let byte = |at: usize| high | ((at * 37 + at / 61) as u8 & low);
    (0..count).map(byte).collect()
}

fn long_integers(count: usize) -> Vec<u8> {
    let object = |at: usize| {
        let value = (at as u32).wrapping_mul(0x9E37_79B9) | 0x4000_0000;
        [vec![0xE4], value.to_be_bytes().to_vec()].concat()
    };
    (0..count).flat_map(object).collect()
}

/// Integers of one, two, three and nine bytes, so that no two neighbours are of one size.
fn integers_of_four_sizes() -> Vec<u8> {
    [
        &[0x85][..],
        &[0xE1, 0x50],
        &[0xE2, 0x01, 0x40],
        &[0xE0, 1, 2, 3, 4, 5, 6, 7, 8],
    ]
    .concat()
}

/// A USTRUC of strings and other STRUCs: notes, each with its figures.
fn notes_with_figures() -> Vec<u8> {
    let chest = sized(0xC5, b"CHEST");
    let measured = sized(0xC2, &[0xE2, 0x04, 0x1A, 0x81]);
    let waist = sized(0xC6, b"WAIST");
    let unknown = sized(0xC2, &[0xFE, 0x82]);
    sized(0xC5, &[chest, measured, waist, unknown].concat())
}

pub fn nest_of_sixteen() -> Vec<u8> {
    (0..16).fold(vec![0x80], |inner, _| sized(0xC2, &inner))
}

pub fn bit_string(count: usize) -> Vec<u8> {
    let length = (8 * count as u32).to_be_bytes();
    sized(
        0xC1,
        &[&[0xE4], &length[..], &bytes(count, 0, 0xFF)].concat(),
    )
}

/// A measure sheet: type, version, order number, unit and three figures.
pub fn measure_sheet() -> Vec<u8> {
    let kind = sized(0xC6, b"MEASURE");
    let order = [0xE0, 0, 0, 0x01, 0x9A, 0x3C, 0x55, 0x07, 0x21];
    let figures = [
        [0xE4, 0, 0, 0x04, 0x1A],
        [0xE4, 0, 0, 0x03, 0x66],
        [0xE4, 0, 0, 0x02, 0x8F],
    ];
    sized(
        0xC3,
        &[&kind, &[0x81][..], &order, &[0xF8], &figures.concat()].concat(),
    )
}

/// A message that lacks its last six bytes.
pub fn cut_short(mut message: Vec<u8>) -> Vec<u8> {
    message.truncate(message.len() - 6);
    message
}

/// One object of each atomic class, so that no two neighbours are of one class.
fn each_atomic() -> Vec<u8> {
    [
        &[0x41][..],
        &[0x81],
        &[0xE2, 0x01, 0x40],
        &[0xF1, 0x06],
        &[0xF9],
        &[0xFD],
        &[0xFE],
        &[0xFF],
    ]
    .concat()
}

/// A letter with some of everything in it.
pub fn letter() -> Vec<u8> {
    let date = sized(0xC3, &[0x87, 0x81, 0xE2, 0x07, 0xB8, 0x84, 0x86]);
    let from = sized(0xC6, b"JFH@MIT-DMS");
    let flags = sized(0xC2, &[0xFC, 0xFD, 0xFE, 0xF9, 0xF2, 0x02, 0x53]);
    let scores = sized(0xC5, &[0xC4, 0x02, 0x86, 0x80, 0x81, 0xE1, 0x7F]);
    let picture = bit_string(18);
    let text = sized(0xC5, b"A mechanism is defined for use by message servers.");
    let parts = [
        vec![0x85, 0x81, 0xFF],
        date,
        from,
        flags,
        scores,
        picture,
        text,
    ];
    sized(0xC3, &parts.concat())
}

/// A sheet with a note for the cutter.
pub fn sheet_with_note() -> Vec<u8> {
    let note = sized(
        0xC5,
        b"LEFT SHOULDER DROPS; SECOND FITTING ON FRIDAY, ASK FOR THE LINING",
    );
    let mut sheet = measure_sheet();
    sheet.extend(note);
    sheet[1] = (sheet.len() - 2) as u8;
    sheet
}

/// Characters with padding among them, in stretches of every length up to nine.
fn padded_characters(count: usize) -> Vec<u8> {
    let stretch = |at: usize| [bytes(1 + at % 9, 0, 0x7F), vec![0xFF; 1 + at % 3]].concat();
    (0..count).flat_map(stretch).collect()
}

/// A string and a bit string by turns.
fn strings_and_bits() -> Vec<u8> {
    let string = sized(0xC5, b"SEE THE SKETCH");
    [string, bit_string(18)].concat()
}

pub fn load(name: &'static str, message: Vec<u8>) -> Load {
    let given = Given::Message(message);
    Load { name, given }
}

pub fn loads() -> Vec<Load> {
    let all = [integers(), strings(), structures(), sheets()];
    all.into_iter().flatten().collect()
}

fn integers() -> Vec<Load> {
    vec![
        load(
            "16,383 small INTs in a STRUC",
            sized(0xC2, &bytes(16_383, 0x80, 0x3F)),
        ),
        load("64 KB of four-byte INTs", long_integers(13_107)),
        load(
            "INTs of 1, 2, 3 and 9 bytes",
            integers_of_four_sizes().repeat(4_090),
        ),
    ]
}

fn strings() -> Vec<Load> {
    let string = bytes(16_380, 0, 0x7F);
    let note = bytes(60_000, 0, 0x7F);
    let one = sized(0xC4, &[0xE3, 0x00, 0xEA, 0x60, 0x41]);
    let seven = sized(0xC4, b"\xE2\x21\x7BFITTING");
    let nine = sized(0xC4, b"\xE2\x17\x0C\xC6\x09SHOULDERS");
    vec![
        load("a string of 16,380 as USTRUC", sized(0xC5, &string)),
        load("the same as STRING", sized(0xC6, &string)),
        load("strings of eight", sized(0xC5, b"MESSAGES").repeat(1_820)),
        load("a note of 60,000 as USTRUC", sized(0xC5, &note)),
        load("that note as STRING", sized(0xC6, &note)),
        load("60,000 characters from one", sized(0xC2, &one)),
        load("59,997 characters from seven", sized(0xC2, &seven)),
        load(
            "characters with padding",
            sized(0xC2, &padded_characters(9_000)),
        ),
        load("5,900 copies of a string of nine", sized(0xC2, &nine)),
        load("strings and bit strings", strings_and_bits().repeat(1_500)),
        load(
            "USTRUCs of strings and STRUCs",
            notes_with_figures().repeat(862),
        ),
    ]
}

fn structures() -> Vec<Load> {
    let pattern = sized(0xC4, &[0xE2, 0x15, 0x55, 0xF1, 0x03, 0xF1, 0x01, 0x80]);
    vec![
        load("nests of sixteen", nest_of_sixteen().repeat(963)),
        load("a bit string of 60 KB", bit_string(60_000)),
        load(
            "16,383 INTs from eight bytes",
            vec![0xC2, 6, 0xC4, 4, 0xE2, 0x3F, 0xFF, 0x80],
        ),
        load("three rows with bits, 5,461 times", sized(0xC2, &pattern)),
        load("64 KB of padding", vec![0xFF; 65_536]),
        load("atomic classes by turns", each_atomic().repeat(2_340)),
        load("a mixed message", letter().repeat(160)),
    ]
}

fn sheets() -> Vec<Load> {
    vec![
        load("a sheet with a note", sheet_with_note()),
        load("six hundred of them", sheet_with_note().repeat(600)),
        load("one measure sheet", measure_sheet()),
        load("seven hundred of them", measure_sheet().repeat(700)),
        load(
            "the same, the last cut short",
            cut_short(measure_sheet().repeat(700)),
        ),
        load("one measure sheet, cut short", cut_short(measure_sheet())),
        load(
            "a note of 60,000, cut short",
            cut_short(sized(0xC5, &bytes(60_000, 0, 0x7F))),
        ),
    ]
}
