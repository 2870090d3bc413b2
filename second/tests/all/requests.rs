//! The line-oriented command.

use second::command::answer;
use std::io::Write;
use std::process::{Command, Stdio};

const ANSWERS: [(&str, &str); 43] = [
    (
        "read C203818283 20",
        "number 0 place 0 words 16 missing 0 stray 0 table 4 1 16 0 7 3 3 1 0 1 1 0 2 1 0 3",
    ),
    (
        "read c203818283 15",
        "number 11 place 0 words 16 missing 0 stray 0 table",
    ),
    (
        "read C202E201 20",
        "number 3 place 2 words 0 missing 1 stray 0 table",
    ),
    (
        "read - 4",
        "number 0 place 0 words 4 missing 0 stray 0 table 0 0 4 0",
    ),
    (
        "write 9 1 1 7 0 1 0 64",
        "number 0 length 2 stray 0 output E140",
    ),
    (
        "write 1 1 1 7 0 1 0 64",
        "number 15 length 2 stray 0 output -",
    ),
    ("write 0", "number 12 length 0 stray 0 output -"),
    (
        "write 0 1 1 7 0 1 0 64",
        "number 15 length 2 stray 0 output -",
    ),
    ("write 0 0 0 4 0", "number 0 length 0 stray 0 output -"),
    (
        "normalise E10A 7 1",
        "number 0 place 0 words 7 length 1 missing 0 stray 0 table 1 1 7 0 1 0 10 output 8A",
    ),
    (
        "normalise E10A 7 0",
        "number 15 place 0 words 7 length 1 missing 0 stray 0 table 1 1 7 0 1 0 10 output -",
    ),
    (
        "normalise C0 7 1",
        "number 4 place 0 words 0 length 0 missing 0 stray 0 table output -",
    ),
    (
        "read C28201 20",
        "number 2 place 0 words 0 missing 1 stray 0 table",
    ),
    (
        "normalise 80C283020000 7 1",
        "number 2 place 1 words 0 length 0 missing 65536 stray 0 table output -",
    ),
    (
        "read C602C845 8",
        "number 0 place 0 words 8 missing 0 stray 0 table 1 1 7 1 9 2 0 5207568544123846656",
    ),
    (
        "write 4 1 1 7 1 9 2 0 5207568544123846656",
        "number 0 length 4 stray 0 output C5024845",
    ),
    (
        "compare 6 2 2 10 0 1 0 5 1 0 6 / 2 2 10 0 1 0 5 1 0 7",
        "number 0 entries 1 stray 0 list 1 1",
    ),
    (
        "compare 4 1 1 7 0 1 0 5 / 2 2 10 0 1 0 5 1 0 7",
        "number 0 entries 1 stray 0 list 1 2",
    ),
    (
        "compare 1 1 1 7 0 1 0 5 / 1 1 7 0 1 0 6",
        "number 16 entries 1 stray 0 list",
    ),
    (
        "compare 0 1 1 7 0 1 0 5 / 1 1 7 0 1 0 5",
        "number 0 entries 0 stray 0 list",
    ),
    ("compare 4 0 0 4 0 /", "number 12 entries 0 stray 0 list"),
    ("compare 4 /", "number 12 entries 0 stray 0 list"),
    (
        "measure_read C3078C8187F9858687 30",
        "number 0 place 0 words 28 missing 0 order 7 unit 1 figures 5 6 7 \
         micrometres 15875 19050 22225 stray 0 \
         table 8 1 28 0 8 7 7 1 0 12 1 0 1 1 0 7 6 0 1 1 0 5 1 0 6 1 0 7",
    ),
    (
        "measure_read FE 9",
        "number 20 place 0 words 0 missing 0 order 0 unit 0 figures 0 0 0 \
         micrometres 0 0 0 stray 0 table 1 1 7 0 5 0 0",
    ),
    (
        "measure_read C3078C81 30",
        "number 2 place 0 words 0 missing 5 order 0 unit 0 figures 0 0 0 \
         micrometres 0 0 0 stray 0 table",
    ),
    (
        "measure_write 12 -1 0 5 6 7",
        "number 0 length 10 stray 0 output C3088C81E1FFF8858687",
    ),
    (
        "measure_write 9 -1 0 5 6 7",
        "number 15 length 10 stray 0 output -",
    ),
    (
        "measure_write 12 -1 0 5 6 20001",
        "number 22 length 0 stray 0 output -",
    ),
    (
        "salvage 81FFC3018782C20482 9 9",
        "number 0 length 4 entries 2 stray 0 output 81FFFE82 list 2 3 9 6 3 2",
    ),
    (
        "salvage 81FFC3018782C20482 3 9",
        "number 15 length 4 entries 0 stray 0 output - list",
    ),
    (
        "salvage 81FFC3018782C20482 4 5",
        "number 16 length 0 entries 2 stray 0 output - list",
    ),
    (
        "salvage C0 0 3",
        "number 0 length 0 entries 1 stray 0 output - list 0 1 4",
    ),
    (
        "salvage - 4 4",
        "number 0 length 0 entries 0 stray 0 output - list",
    ),
    (
        "explain C202E201 20 3",
        "number 0 entries 1 reading 3 place 2 words 0 missing 1 evidence 1 4 0 stray 0 list 0",
    ),
    (
        "explain C204C5028141 20 1",
        "number 0 entries 1 reading 8 place 2 words 0 missing 0 evidence 5 4 5 stray 0 list 0",
    ),
    (
        "explain C204C5028141 20 0",
        "number 16 entries 1 reading 0 place 0 words 0 missing 0 evidence 0 0 0 stray 0 list",
    ),
    (
        "explain C104E2FF8100 20 0",
        "number 0 entries 0 reading 6 place 0 words 0 missing 0 \
         evidence 3 18446744073709551489 0 stray 0 list",
    ),
    (
        "explain C203818283 15 4",
        "number 0 entries 0 reading 11 place 0 words 16 missing 0 evidence 8 4 0 stray 0 list",
    ),
    (
        "explain C203818283 16 4",
        "number 0 entries 0 reading 0 place 0 words 16 missing 0 evidence 0 0 0 stray 0 list",
    ),
    (
        "explain - 3 0",
        "number 0 entries 0 reading 11 place 0 words 4 missing 0 evidence 8 0 0 stray 0 list",
    ),
    (
        "list C602C845",
        r"text accepted 1 items 1 rows\n0 STRING 2 72 69\n",
    ),
    ("list FE", r"text accepted 1 items 1 rows\n0 EMPTY\n"),
    ("list C4", r"text refused 7 at 0\n"),
];

#[test]
fn each_request_is_answered() {
    for (request, expected) in ANSWERS {
        assert_eq!(answer(request), expected, "{request}");
    }
}

#[test]
fn what_is_no_request_is_answered_with_help() {
    let strange = [
        "",
        "  ",
        "sing",
        "read",
        "read C2",
        "read C 4",
        "read C2 4 4",
        "read é 4",
        "read XX 4",
        "read C2 -1",
        "read C2 99999999999999999999",
        "read C2 1048577",
        "write",
        "write x",
        "write 4 18446744073709551616",
        "write 0 1.5",
        "length 1 1 7 0 1 0 64",
        "normalise C2 4",
        "compare",
        "compare 4",
        "compare / 0 0 4 0",
        "compare 4 0 0 4 0",
        "compare 4 0 0 4 0 / 0 0 4 0 / 0 0 4 0",
        "compare 4 0 0 4 0/0 0 4 0",
        "compare 4 x / 0 0 4 0",
        "measure_read C2",
        "measure_read C2 4 4",
        "measure_write 9 7 0 5 6",
        "measure_write 9 7 0 5 6 7 8",
        "measure_write 9 9223372036854775808 0 5 6 7",
        "measure_write 9 7 -1 5 6 7",
        "measure_write 9 7 0 5 6 EMPTY",
        "salvage C2",
        "salvage C2 4",
        "salvage C2 4 4 4",
        "salvage C 4 4",
        "salvage C2 4 -1",
        "explain C2",
        "explain C2 4",
        "explain C2 4 4 4",
        "explain C 4 4",
        "explain C2 -1 4",
        "explain C2 4 1048577",
        "list",
        "list C2 C2",
    ];
    for request in strange {
        assert!(answer(request).starts_with("error: "), "{request}");
        assert!(!answer(request).contains('\n'), "{request}");
    }
}

#[test]
fn the_command_answers_line_by_line() {
    let program = env!("CARGO_BIN_EXE_second");
    let mut command = Command::new(program);
    let piped = command.stdin(Stdio::piped()).stdout(Stdio::piped());
    let mut child = piped.spawn().expect("the command");
    let long = "FF".repeat(65_537);
    let first = format!("list FE\nread {long} 4\n");
    let requests = [first.as_bytes(), &[0xFF], b"\nread - 4"].concat();
    let mut input = child.stdin.take().expect("its input");
    input.write_all(&requests).expect("requests");
    drop(input);
    let output = child.wait_with_output().expect("its output");
    let text = String::from_utf8(output.stdout).expect("text");
    let lines: Vec<&str> = text.lines().collect();
    assert_eq!(lines.len(), 4);
    assert_eq!(lines[1], "number 1 place 0 words 0 missing 0 stray 0 table");
    assert!(lines[2].starts_with("error: "));
    assert_eq!(
        lines[3],
        "number 0 place 0 words 4 missing 0 stray 0 table 0 0 4 0"
    );
    assert!(output.status.success());
}

#[test]
fn the_listing_ends_at_eight_thousand_words() {
    let fits = [vec![0xFE; 2_664], vec![0xF1, 0x03]].concat();
    let text = second::listing(&fits);
    let expected = "accepted 2665 items 2665 rows\n".to_string();
    assert_eq!(text, expected + &"0 EMPTY\n".repeat(2_664) + "0 BITS 1 1\n");
    let over = [vec![0xFE; 2_664], vec![0xF1, 0x03, 0xFE]].concat();
    assert_eq!(second::listing(&over), "refused 11 at 0\n");
    let string = |low| [0xC2, 7, 0xC4, 5, 0xE3, 0x00, 0xF9, low, 0x41];
    let expected = "accepted 1 items 1 rows\n0 STRING 63944".to_string();
    let text = second::listing(&string(0xC8));
    assert_eq!(text, expected + &" 65".repeat(63_944) + "\n");
    assert_eq!(second::listing(&string(0xC9)), "refused 11 at 0\n");
}
