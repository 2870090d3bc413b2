//! Measure sheets: one product's message, read to its figures and written from
//! them.

use crate::library;
use crate::numbers::ACCEPTED;
use crate::operations::written;
use crate::refused::Refused;
use crate::sys::{MeasureReading, EIGHTHS_INCH, TENTHS_CM};
use std::fmt::{Display, Formatter};

/// What the figures of a sheet count.
///
/// ```
/// use msdtp::Unit;
///
/// assert_eq!(Unit::TenthsOfCentimetre.to_string(), "tenths of a centimetre");
/// assert_eq!(Unit::EighthsOfInch.to_string(), "eighths of an inch");
/// ```
#[derive(Clone, Copy, Debug, PartialEq, Eq, Hash)]
pub enum Unit {
    /// Tenths of a centimetre, XTRA 0: 1,000 micrometres each.
    TenthsOfCentimetre,
    /// Eighths of an inch, XTRA 1: 3,175 micrometres each.
    EighthsOfInch,
}

impl Unit {
    /// The unit as the library has it.
    fn code(self) -> u64 {
        match self {
            Unit::TenthsOfCentimetre => TENTHS_CM,
            Unit::EighthsOfInch => EIGHTHS_INCH,
        }
    }

    /// The unit that an accepted reading tells, which is one of the two.
    fn of(code: u64) -> Unit {
        match code {
            TENTHS_CM => Unit::TenthsOfCentimetre,
            EIGHTHS_INCH => Unit::EighthsOfInch,
            _ => unreachable!("a sheet that was accepted with unit {code}"),
        }
    }
}

/// In words, as `tenths of a centimetre`.
impl Display for Unit {
    fn fmt(&self, to: &mut Formatter<'_>) -> std::fmt::Result {
        to.write_str(match self {
            Unit::TenthsOfCentimetre => "tenths of a centimetre",
            Unit::EighthsOfInch => "eighths of an inch",
        })
    }
}

/// A measure sheet: an order number, and three figures in one unit. A figure is
/// from 1 to [`FIGURE_MOST`](crate::FIGURE_MOST).
#[derive(Clone, Copy, Debug, PartialEq, Eq, Hash)]
pub struct Sheet {
    /// The order number, which may be any.
    pub order: i64,
    /// What the figures count.
    pub unit: Unit,
    /// The chest.
    pub chest: u64,
    /// The waist.
    pub waist: u64,
    /// The sleeve.
    pub sleeve: u64,
}

/// The figures of a sheet in micrometres, exactly.
#[derive(Clone, Copy, Debug, PartialEq, Eq, Hash)]
pub struct Micrometres {
    /// The chest.
    pub chest: u64,
    /// The waist.
    pub waist: u64,
    /// The sleeve.
    pub sleeve: u64,
}

/// What an accepted reading of a measure sheet answers; made by
/// [`measure_read`].
#[derive(Clone, Copy, Debug, PartialEq, Eq)]
pub struct Measured {
    /// The sheet.
    pub sheet: Sheet,
    /// Its figures in micrometres, as the library tells them.
    pub micrometres: Micrometres,
    /// The table's words, from its first.
    pub words: usize,
}

impl Measured {
    /// What the library answers with 0.
    fn of(answer: MeasureReading) -> Measured {
        Measured {
            sheet: Sheet {
                order: answer.order,
                unit: Unit::of(answer.unit),
                chest: answer.chest,
                waist: answer.waist,
                sleeve: answer.sleeve,
            },
            micrometres: Micrometres {
                chest: answer.chest_um,
                waist: answer.waist_um,
                sleeve: answer.sleeve_um,
            },
            words: answer.words as usize,
        }
    }
}

/// Reads a message that is a measure sheet into a lent table, and answers its
/// figures.
///
/// A refused sheet has no figures: one of which a figure is EMPTY, or out of
/// range, is not answered with the other two.
///
/// ```
/// use msdtp::{measure_read, Micrometres, Sheet, Unit, SHEET_WORDS};
///
/// let mut table = [0; SHEET_WORDS];
/// let message = b"\xC3\x0F\x8C\x81\xE2\x12\x67\xF8\xE2\x03\xF8\xE2\x03\x60\xE2\x02\x8A";
/// let measured = measure_read(message, &mut table)?;
/// assert_eq!(
///     measured.sheet,
///     Sheet {
///         order: 4711,
///         unit: Unit::TenthsOfCentimetre,
///         chest: 1016,
///         waist: 864,
///         sleeve: 650,
///     }
/// );
/// assert_eq!(
///     measured.micrometres,
///     Micrometres {
///         chest: 1_016_000,
///         waist: 864_000,
///         sleeve: 650_000,
///     }
/// );
/// # Ok::<(), msdtp::Refused>(())
/// ```
///
/// # What a measure sheet is
///
/// A message of exactly one outermost item, an EDT of exactly seven elements,
/// each of which is one row of the table. In row 0 stands the EDT, then:
///
/// | Row | Element | What it is |
/// |---|---|---|
/// | 1 | type | the INT 12, or the string "MEASURE" |
/// | 2 | version | the INT 1 |
/// | 3 | order number | any INT |
/// | 4 | unit | XTRA 0, tenths of a centimetre, or XTRA 1, eighths of an inch |
/// | 5, 6, 7 | chest, waist, sleeve | the figures: each an INT from 1 to [`FIGURE_MOST`](crate::FIGURE_MOST), or EMPTY, where it was left out |
///
/// It is judged by its items, whatever objects say them: longer forms, repeats
/// and padding make no difference.
///
/// # Refusals
///
/// - 1 to 11 as [`read`](crate::read) has them, with all that they tell. The table
///   is as it was.
/// - 20, where the message is accepted by `read` and is no measure sheet: several
///   sheets in one message, a sheet with a note behind it, a figure that is neither
///   INT nor EMPTY.
/// - 21, where it would be one, but a figure is EMPTY, or several are: stop and
///   ask.
/// - 22, where none is EMPTY, but a figure is out of range, or several are.
///
/// Each is looked for in the whole sheet before the next: an EMPTY beside a figure
/// that is out of range is 21. With 20 to 22 the table holds the reading, as it
/// does with an accepted sheet, and [`rows`](crate::rows) gives its rows: with 21
/// and 22 those above.
///
/// ```
/// use msdtp::numbers::FIGURE_EMPTY;
/// use msdtp::{measure_read, rows, Row, SHEET_WORDS};
///
/// // Order 4712, with an EMPTY for the chest.
/// let message = b"\xC3\x0D\x8C\x81\xE2\x12\x68\xF8\xFE\xE2\x03\x60\xE2\x02\x8A";
/// let mut table = [0; SHEET_WORDS];
/// let refused = measure_read(message, &mut table).unwrap_err();
/// assert_eq!(refused.number, FIGURE_EMPTY);
/// assert_eq!(
///     refused.to_string(),
///     "refused 21: a figure of the sheet is EMPTY: stop and ask"
/// );
/// // What to ask for.
/// let listed: Vec<Row> = rows(&table).collect();
/// assert_eq!((listed[3], listed[5]), (Row::Int(4712), Row::Empty));
/// ```
///
/// # Room
///
/// A sheet takes 28 words, or [`SHEET_WORDS`](crate::SHEET_WORDS) if its type is by
/// name. A message that takes more is no sheet: where so many are lent it is 11,
/// and where as many as 11 tells, 20. So a caller who wants nothing but sheets need
/// not lend more.
pub fn measure_read(message: &[u8], table: &mut [u64]) -> Result<Measured, Refused> {
    let answer = library::measure_read(message, table);
    match answer.number {
        ACCEPTED => Ok(Measured::of(answer)),
        number => Err(Refused {
            number,
            place: answer.place as usize,
            needed: answer.words as usize,
            words: 0,
            missing: answer.missing as usize,
        }),
    }
}

/// Writes a measure sheet into a lent output, and answers its length.
///
/// The first bytes of the output are then the sheet in normal form, with the INT
/// 12 as type and the INT 1 as version, and the bytes after them are as they were.
/// A refusal is 22, where a figure is 0 or over [`FIGURE_MOST`](crate::FIGURE_MOST),
/// or else 15, where the output is too short, and leaves the whole output as it was.
/// [`SHEET_BYTES`](crate::SHEET_BYTES) are always enough; with number 15 the refusal
/// says how many are needed. A [`Unit`] is always one of a sheet, so 20 is not
/// given here; and there is no sheet to write of which a figure is EMPTY.
///
/// The output lent decides only between an accepted writing and number 15. A sheet
/// has nine bytes at least, so an empty output always gets 15 where no figure is out
/// of range.
///
/// What is written is read back by [`measure_read`] as the same sheet. It is one
/// object with no padding around it: if it is cut, it is always known for that, as
/// [`read`](crate::read) tells.
///
/// ```
/// use msdtp::{measure_read, measure_write, Sheet, Unit, SHEET_BYTES, SHEET_WORDS};
///
/// let sheet = Sheet {
///     order: 4713,
///     unit: Unit::EighthsOfInch,
///     chest: 320,
///     waist: 272,
///     sleeve: 204,
/// };
/// let mut output = [0; SHEET_BYTES];
/// let length = measure_write(&sheet, &mut output)?;
/// assert_eq!(length, 17);
///
/// let mut table = [0; SHEET_WORDS];
/// let measured = measure_read(&output[..length], &mut table)?;
/// assert_eq!(measured.sheet, sheet);
/// assert_eq!(measured.micrometres.chest, 1_016_000);
///
/// let none = Sheet { chest: 0, ..sheet };
/// let refused = measure_write(&none, &mut output).unwrap_err();
/// assert_eq!(
///     refused.to_string(),
///     "refused 22: a figure of the sheet is not from 1 to 20,000"
/// );
/// # Ok::<(), msdtp::Refused>(())
/// ```
pub fn measure_write(sheet: &Sheet, output: &mut [u8]) -> Result<usize, Refused> {
    let figures = [sheet.chest, sheet.waist, sheet.sleeve];
    written(library::measure_write(
        sheet.order,
        sheet.unit.code(),
        figures,
        output,
    ))
}
