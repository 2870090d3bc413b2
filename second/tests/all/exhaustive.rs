//! All short messages over an alphabet.

use crate::agreement::of_message;
use crate::every::{every_run, pairs};

const WIDE: [u8; 24] = [
    0x00, 0x01, 0x02, 0x03, 0x41, 0x7F, 0x80, 0x81, 0x82, 0xC0, 0xC1, 0xC2, 0xC3, 0xC4, 0xC5, 0xC6,
    0xE1, 0xE2, 0xF1, 0xF2, 0xF8, 0xFC, 0xFE, 0xFF,
];

const NESTING: [u8; 12] = [
    0x01, 0x02, 0x03, 0x41, 0x80, 0x82, 0xC2, 0xC3, 0xC4, 0xC5, 0xE1, 0xFF,
];

/// Objects of every kind, strings and other STRUCs in several forms, repeats of
/// some of them, and padding.
const OBJECTS: [&[u8]; 22] = [
    &[0x81],
    &[0xE1, 0xFF],
    &[0xF1, 0x03],
    &[0x41],
    &[0xFD],
    &[0xFE],
    &[0xF9],
    &[0xC6, 1, 0xC1],
    &[0xC5, 1, 0x41],
    &[0xC2, 0x81, 0],
    &[0xC2, 4, 0xC4, 2, 0x82, 0x41],
    &[0xC2, 1, 0x81],
    &[0xC5, 1, 0x81],
    &[0xC2, 2, 0x41, 0x81],
    &[0xC5, 6, 0xC5, 1, 0x41, 0xC2, 1, 0x81],
    &[0xC3, 2, 0x81, 0x82],
    &[0xC4, 2, 0x82, 0x81],
    &[0xC4, 4, 0x80, 0xC6, 1, 0x41],
    &[0xC4, 4, 0x81, 0xC6, 1, 0x41],
    &[0xC4, 4, 0x82, 0xC2, 1, 0x81],
    &[0xC4, 7, 0x82, 0xC6, 1, 0x41, 0xC2, 1, 0x81],
    &[0xFF],
];

#[test]
fn of_three_objects_in_each_container() {
    for type_byte in [0xC2, 0xC3, 0xC5] {
        every_run(&OBJECTS, 3, |objects| {
            let contents = objects.concat();
            of_message(&[&[type_byte, contents.len() as u8], &contents[..]].concat());
        });
    }
}

#[test]
fn of_one_two_and_three_bytes() {
    let all: Vec<u8> = (0..=255).collect();
    of_message(&[]);
    every_run(&all, 1, of_message);
    every_run(&all, 2, of_message);
    for third in [0x00, 0x01, 0x80, 0xFF] {
        every_run(&all, 2, |run| of_message(&[run[0], run[1], third]));
    }
}

#[test]
fn of_four_bytes_over_a_wide_alphabet() {
    for length in 3..=4 {
        every_run(&WIDE, length, of_message);
    }
}

#[test]
fn of_six_bytes_over_a_nesting_alphabet() {
    for length in 5..=6 {
        every_run(&NESTING, length, of_message);
    }
}

#[test]
fn inside_each_container() {
    for type_byte in [0xC1, 0xC2, 0xC3, 0xC4, 0xC5, 0xC6] {
        every_run(&WIDE, 4, |run| {
            of_message(&[&[type_byte, 4], run].concat());
        });
    }
}

#[test]
fn inside_a_repeat_in_each_container() {
    for (type_byte, count) in pairs(&[0xC2, 0xC3, 0xC5], &[0x80, 0x81, 0x83]) {
        every_run(&NESTING, 4, |run| {
            of_message(&[&[type_byte, 7, 0xC4, 5, count], run].concat());
            of_message(&[&[type_byte, 8, 0xC4, 4, count], run, &[0x81]].concat());
        });
    }
}

#[test]
fn after_a_repeat_in_each_container() {
    for (type_byte, count) in pairs(&[0xC2, 0xC3, 0xC5], &[0x80, 0x81, 0x82]) {
        every_run(&WIDE, 3, |run| {
            of_message(&[&[type_byte, 7, 0xC4, 2, count, 0x41], run].concat());
            of_message(&[&[type_byte, 7, 0xC4, 2, count, 0x81], run].concat());
        });
    }
}
