//! What `docs/FORMAT.md` and `docs/REFUSALS.md` say of measure sheets, held against
//! the library: the worked sheets, the numbers 20 to 22, and those of each operation.

use crate::checker::Checker;
use crate::format_page::{bytes, rows};
use crate::measuring::{in_room, measured, Met, Sheet};
use crate::pages::message;
use crate::refusals_page::{case, lines, operations, Case, Line, Numbers, LAST};
use crate::rooms::AMPLE_WORDS;
use crate::small_stack::in_both_stacks;
use crate::told;
use second::MeasureReading;

/// An answer as the page of the format writes it: the sheet, or the refusal with the
/// bytes missing if there are some; and the micrometres.
fn told(answer: &MeasureReading) -> [String; 2] {
    let MeasureReading {
        order,
        unit,
        chest,
        waist,
        sleeve,
        chest_um,
        waist_um,
        sleeve_um,
        ..
    } = answer;
    let said = match (answer.number, answer.missing) {
        (0, _) => format!("order {order}, unit {unit}: {chest} {waist} {sleeve}"),
        (number, 0) => format!("refused {number}"),
        (number, missing) => format!("refused {number}, {missing} missing"),
    };
    let micrometres = match answer.number {
        0 => format!("{chest_um} {waist_um} {sleeve_um}"),
        _ => String::new(),
    };
    [said, micrometres]
}

#[test]
fn the_worked_sheets() {
    let mut checker = Checker::new();
    let examples = rows("Sheet", 23);
    in_both_stacks(&mut checker, |checker| {
        for row in &examples {
            let message = bytes(&row[0], &[]);
            let answer = in_room(checker, &message, AMPLE_WORDS);
            let same = told(&answer)[..] == row[1..];
            checker.must(same, || format!("{answer:?}, not {row:?}"));
            measured(checker, &message, &mut Met::new());
        }
    });
}

/// The elements of a sheet, by their rows, and that each is judged there: a BOOL in
/// its place is refused, by the base if it is one of the first two.
#[test]
fn the_seven_elements() {
    let names: Vec<[String; 2]> = rows("Row", 7)
        .iter()
        .map(|row| [row[0].clone(), row[1].clone()])
        .collect();
    let due = [
        "type",
        "version",
        "order number",
        "unit",
        "chest",
        "waist",
        "sleeve",
    ];
    let due: Vec<[String; 2]> = (1..)
        .zip(due)
        .map(|(row, name): (u64, &str)| [row.to_string(), name.into()])
        .collect();
    assert_eq!(names, due);
    let right = [0xC3, 7, 0x8C, 0x81, 0x87, 0xF8, 0x85, 0x86, 0x87];
    let mut checker = Checker::new();
    in_both_stacks(&mut checker, |checker| {
        for row in 1..=7 {
            let mut sheet = right;
            sheet[row + 1] = 0xFD;
            let number = measured(checker, &sheet, &mut Met::new());
            let due = if row < 3 { 9 } else { 20 };
            checker.must(number == due, || format!("row {row}: {number}"));
        }
    });
}

/// The rows of the numbers of measure sheets.
fn page() -> Vec<Line> {
    lines().filter(|line| line.number > LAST).collect()
}

/// What the page calls the smallest that gets a number.
fn smallest(line: &Line) -> Vec<u8> {
    match line.smallest.as_str() {
        "no bytes" => vec![],
        cell => message(cell).expect("bytes"),
    }
}

#[test]
fn the_smallest_get_their_answers() {
    let lines = page();
    let numbers: Vec<u64> = lines.iter().map(|line| line.number).collect();
    assert_eq!(numbers, [20, 21, 22]);
    let mut checker = Checker::new();
    in_both_stacks(&mut checker, |checker| {
        for line in &lines {
            let message = smallest(line);
            let answer = in_room(checker, &message, AMPLE_WORDS);
            let told = answer.number.to_string();
            let same = answer.number == line.number && told == line.answer;
            checker.must(same, || format!("{}, not {answer:?}", line.name));
        }
    });
}

/// Seven elements of a byte each and two bytes before them: no sheet is shorter, and
/// with a figure in the place of the one refused it is accepted.
#[test]
fn the_smallest_are_as_short_as_a_sheet() {
    let mut checker = Checker::new();
    for line in page().iter().filter(|line| line.number > 20) {
        let mut sheet = smallest(line);
        assert_eq!(sheet.len(), 9);
        let at = sheet.iter().rposition(|&byte| byte == 0xFE || byte == 0x80);
        sheet[at.expect("the figure")] = 0x81;
        let number = measured(&mut checker, &sheet, &mut Met::new());
        assert_eq!(number, 0, "{}", told::bytes(&sheet));
    }
    checker.must_agree();
}

/// The two operations get, for what is on the page and for a sheet that is right,
/// exactly the numbers that it has for them.
#[test]
fn each_operation_gets_its_numbers() {
    let mut checker = Checker::new();
    let mut got = Numbers::new();
    let mut get = |name: &str, number| got.entry(name.into()).or_default().insert(number);
    for line in lines().filter(|line| line.number <= LAST) {
        if let Case::Reading(message, lent, _) = case(&line) {
            get("reading a sheet", checker.measuring(&message, lent).number);
        }
    }
    let right = Sheet {
        order: 0,
        unit: 0,
        figures: [1; 3],
    };
    let sheets = [
        right,
        Sheet { unit: 2, ..right },
        Sheet {
            figures: [1, 1, 0],
            ..right
        },
    ];
    for sheet in sheets {
        for room in [0, 23] {
            get(
                "writing a sheet",
                checker.measure_writing(&sheet, room).number,
            );
        }
    }
    checker.measure_writing(&right, 9);
    let written = checker.output().to_vec();
    for message in page().iter().map(smallest).chain([written]) {
        get(
            "reading a sheet",
            checker.measuring(&message, AMPLE_WORDS).number,
        );
    }
    checker.must_agree();
    assert_eq!(got, operations(true), "the numbers of each operation");
}
