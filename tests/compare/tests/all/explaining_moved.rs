//! A refusal explained (Ask 9), by what is told of other messages: of the same one
//! inside another, behind another and before other bytes, and of the objects that it
//! names, alone.

use crate::batches::{DAMAGED, LOST, OVER};
use crate::chance::Chance;
use crate::checker::Checker;
use crate::cuts::extent;
use crate::damage::{damaged, TELLING};
use crate::every::every_run;
use crate::explaining::{explained_once, Explained, Met};
use crate::explaining_evidence::{around, Evidence, BYTE, ELEMENT, END, KINDS, NO_ELEMENT, WANTED};
use crate::objects::sized;
use crate::small_stack::{by_chance, in_small_stack, report};
use crate::{batches, hostile, makers, told};
use second::Reading;

const MOST_BYTES: usize = 65_536;

/// What is told of a message without a table.
fn of(checker: &mut Checker, message: &[u8]) -> Explained {
    explained_once(checker, message, &mut Met::default())
}

/// The same, so many bytes further on.
fn moved(explained: &Explained, by: u64) -> Explained {
    let [code, first, second] = explained.evidence;
    let evidence = match code {
        END => [code, first + by, second],
        BYTE | ELEMENT => [code, first, second + by],
        KINDS => [code, first + by, second + by],
        _ => explained.evidence,
    };
    let places = explained.containers.iter().map(|place| place + by);
    Explained {
        reading: Reading {
            place: explained.reading.place + by,
            ..explained.reading
        },
        containers: places.collect(),
        evidence,
    }
}

/// More rows and data words than told, which are never told as more than the most.
fn with_more(explained: &Explained, rows: u64, data: u64) -> Evidence {
    let [_, first, second] = explained.evidence;
    [
        WANTED,
        (first + rows).min(65_536),
        (second + data).min(65_536),
    ]
}

fn must_be(checker: &mut Checker, message: &[u8], got: &Explained, due: &Explained) {
    checker.must(got == due, || {
        format!("{got:?}, not {due:?}: {}", told::bytes(message))
    });
}

/// A message inside one more container of each sort, a REPEAT in a STRUC among them, and
/// the places of those that are more.
fn wrapped(message: &[u8]) -> [(Vec<u8>, Vec<u64>); 4] {
    let repeat = sized(0xC4, &[&[0xFF, 0x82], message].concat());
    let in_repeat = sized(0xC2, &repeat);
    let place = (in_repeat.len() - repeat.len()) as u64;
    [
        (sized(0xC2, message), vec![0]),
        (sized(0xC5, message), vec![0]),
        (sized(0xC3, &[&[0x81, 0x82], message].concat()), vec![0]),
        (in_repeat, vec![0, place]),
    ]
}

/// Inside more containers all is so much further on, and these are listed first. An end
/// that was the message's is then a container's, so that 2 is 3. If a container is now
/// the seventeenth, that comes first.
fn inside(checker: &mut Checker, message: &[u8], explained: &Explained) {
    for (longer, more) in wrapped(message) {
        if longer.len() > MOST_BYTES {
            continue;
        }
        let got = of(checker, &longer);
        let by = (longer.len() - message.len()) as u64;
        let mut due = moved(explained, by);
        due.reading.number = explained.reading.number.max(3);
        due.containers.splice(0..0, more.clone());
        if got.reading.number == 5 {
            is_the_seventeenth(checker, message, explained, &got, (&more, by));
        } else {
            must_be(checker, &longer, &got, &due);
        }
    }
}

/// One that stood inside sixteen less those that are more, before the end of what was
/// told alone.
fn is_the_seventeenth(
    checker: &mut Checker,
    message: &[u8],
    alone: &Explained,
    got: &Explained,
    (more, by): (&[u64], u64),
) {
    let place = got.reading.place - by;
    let (containers, _) = around(message, place as usize);
    let moved = containers.iter().map(|place| place + by);
    let due: Vec<u64> = more.iter().copied().chain(moved).collect();
    let is_before = place < end_of_fault(message, alone) as u64;
    checker.must(
        is_before && due.len() == 16 && got.containers == due,
        || format!("{got:?}, {alone:?} alone: {}", told::bytes(message)),
    );
}

/// In an EDT with two INTs, what a message wants is three rows more.
fn wants_inside(checker: &mut Checker, message: &[u8], explained: &Explained) {
    let longer = sized(0xC3, &[&[0x81, 0x82], message].concat());
    let got = of(checker, &longer);
    let same = match got.reading.number {
        1 => longer.len() > MOST_BYTES,
        5 => got.containers.len() == 16 && got.containers[0] == 0,
        10 | 11 => got.evidence == with_more(explained, 3, 0),
        _ => false,
    };
    checker.must(same, || {
        format!("{got:?}, {explained:?} alone: {}", told::bytes(message))
    });
}

/// Behind a message without a fault all is so much further on (Ask 8), and what both
/// want adds up.
fn behind(checker: &mut Checker, before: &[u8], message: &[u8], explained: &Explained) {
    let longer = [before, message].concat();
    let first = of(checker, before);
    if first.reading.number != 11 || longer.len() > MOST_BYTES {
        return;
    }
    let got = of(checker, &longer);
    match explained.reading.number {
        2..=9 => must_be(
            checker,
            &longer,
            &got,
            &moved(explained, before.len() as u64),
        ),
        _ => {
            let [_, rows, data] = first.evidence;
            let same = got.evidence == with_more(explained, rows, data);
            checker.must(same, || {
                format!("{got:?}, {explained:?} alone: {}", told::bytes(&longer))
            });
        }
    }
}

/// Where the faulty object ends, or what is known of it: what stands from there on was
/// not looked at.
fn end_of_fault(message: &[u8], explained: &Explained) -> usize {
    let place = explained.reading.place as usize;
    let whole = || extent(&message[place..]).map_or(0, |object| place + object.bytes);
    match explained.reading.number {
        2 | 3 => explained.evidence[1] as usize,
        4 | 5 => place + 1,
        7 if explained.containers.is_empty() => place + 1,
        _ => whole(),
    }
}

/// Other bytes behind the fault, inside its containers and behind the message, make no
/// difference. With 2 there are none.
fn before_others(checker: &mut Checker, message: &[u8], explained: &Explained) {
    let end = end_of_fault(message, explained);
    for other in [0x00, 0x41, 0x81, 0xC0, 0xC2, 0xFF] {
        let mut changed = message.to_vec();
        changed[end..].fill(other);
        let got = of(checker, &changed);
        must_be(checker, &changed, &got, explained);
        if explained.reading.number != 2 && message.len() + 9 <= MOST_BYTES {
            changed.extend([other; 9]);
            let got = of(checker, &changed);
            must_be(checker, &changed, &got, explained);
        }
    }
}

/// The object that passes an end, cut there, is a message that is cut, and as much is
/// missing. A REPEAT is one as a STRUC.
fn cut_alone(checker: &mut Checker, message: &[u8], explained: &Explained) {
    let (place, end) = (explained.reading.place, explained.evidence[1]);
    let mut object = message[place as usize..end as usize].to_vec();
    if object[0] == 0xC4 {
        object[0] = 0xC2;
    }
    let got = of(checker, &object);
    let due = Explained {
        reading: Reading {
            number: 2,
            place: 0,
            ..explained.reading
        },
        containers: vec![],
        evidence: [END, object.len() as u64, 0],
    };
    must_be(checker, message, &got, &due);
}

/// An object of the message, from its type-byte to its end.
fn object(message: &[u8], place: u64) -> &[u8] {
    let rest = &message[place as usize..];
    &rest[..extent(rest).expect("a whole object").bytes]
}

/// An object of these contents is refused at once, with this number and this evidence,
/// places counted from its contents.
fn alone_is(
    checker: &mut Checker,
    type_byte: u8,
    contents: &[&[u8]],
    number: u64,
    evidence: Evidence,
) {
    let message = sized(type_byte, &contents.concat());
    let head = message.len() - contents.concat().len();
    let got = of(checker, &message);
    let reading = Reading {
        number,
        place: 0,
        words: 0,
        missing: 0,
    };
    let due = Explained {
        reading,
        containers: vec![],
        evidence,
    };
    let mut due = moved(&due, head as u64);
    due.reading.place = 0;
    must_be(checker, &message, &got, &due);
}

/// The two objects that differ in kind differ so in a USTRUC of their own.
fn kinds_alone(checker: &mut Checker, message: &[u8], explained: &Explained) {
    let [_, first, second] = explained.evidence;
    let [one, other] = [first, second].map(|place| object(message, place));
    let places = [KINDS, 0, one.len() as u64];
    alone_is(checker, 0xC5, &[one, other], 8, places);
}

/// The element that is wrong is wrong in an EDT of its own, beside an INT. What an EDT
/// lacks at its head is no longer lacking with an INT for each in front, or behind.
fn heads_alone(checker: &mut Checker, message: &[u8], explained: &Explained) {
    let [code, which, place] = explained.evidence;
    match (code, which) {
        (ELEMENT, 1) => {
            let contents = [object(message, place), &[0x81]];
            alone_is(checker, 0xC3, &contents, 9, [ELEMENT, 1, 0]);
        }
        (ELEMENT, _) => {
            let contents = [&[0x81], object(message, place)];
            alone_is(checker, 0xC3, &contents, 9, [ELEMENT, 2, 1]);
        }
        _ => {}
    }
    let edt = object(message, explained.reading.place);
    let head = 1 + extent(edt).expect("an EDT").field;
    let in_front = [&[0x81, 0x82], &edt[head..]].concat();
    let behind = [&edt[head..], &[0x81, 0x82][which as usize - 1..]].concat();
    for (contents, holds) in [(in_front, true), (behind, code == NO_ELEMENT)] {
        let number = of(checker, &sized(0xC3, &contents)).reading.number;
        checker.must(!holds || number == 10 || number == 11, || {
            format!("{number}: {}", told::bytes(&contents))
        });
    }
}

/// Without the outermost of sixteen containers, what was the seventeenth is none.
fn one_less(checker: &mut Checker, message: &[u8], explained: &Explained) {
    let outermost = object(message, explained.containers[0]);
    let head = 1 + extent(outermost).expect("a container").field;
    let place = explained.reading.place - explained.containers[0] - head as u64;
    let got = of(checker, &outermost[head..]).reading;
    checker.must((got.number, got.place) != (5, place), || {
        format!("{got:?}: {}", told::bytes(message))
    });
}

/// Holds what is told of a message to all these rules.
fn by_the_others(checker: &mut Checker, message: &[u8], met: &mut Met) {
    let explained = explained_once(checker, message, met);
    match explained.reading.number {
        1 => return,
        10 | 11 => wants_inside(checker, message, &explained),
        // A REPEAT is not outermost inside another object.
        7 if explained.containers.is_empty() => {}
        _ => inside(checker, message, &explained),
    }
    if explained.reading.number < 10 {
        before_others(checker, message, &explained);
    }
    for before in [&[0xFF][..], &[0x41, 0xC6, 9, 1, 2, 3, 4, 5, 6, 7, 8, 9]] {
        behind(checker, before, message, &explained);
    }
    match explained.reading.number {
        2 | 3 => cut_alone(checker, message, &explained),
        5 => one_less(checker, message, &explained),
        8 => kinds_alone(checker, message, &explained),
        9 => heads_alone(checker, message, &explained),
        _ => {}
    }
}

#[test]
fn every_short_message() {
    let mut checker = Checker::new();
    let mut met = Met::default();
    let few = [0x02, 0x03, 0x41, 0x80, 0x82, 0xC3, 0xC4, 0xC5];
    in_small_stack(&mut checker, |checker| {
        for (alphabet, lengths) in [(&TELLING[..], 0..=3), (&few, 4..=5)] {
            for length in lengths {
                every_run(alphabet, length, |message| {
                    by_the_others(checker, message, &mut met);
                });
            }
        }
    });
    met.must_have(&[2, 3, 4, 6, 7, 8, 9, 11], 20);
    report("explaining_moved::every_short_message", met.all(), &checker);
}

/// Every damage, one behind another.
#[test]
fn every_damage() {
    let damaged = DAMAGED.iter().chain(&LOST).map(|&(bytes, _)| bytes);
    let damaged: Vec<&[u8]> = damaged.chain(OVER).collect();
    let mut checker = Checker::new();
    let mut met = Met::default();
    in_small_stack(&mut checker, |checker| {
        for length in 1..=2 {
            every_run(&damaged, length, |run| {
                by_the_others(checker, &run.concat(), &mut met);
                by_the_others(checker, &sized(0xC5, &run.concat()), &mut met);
            });
        }
    });
    met.must_be_all_but(&[0], 20);
    report("explaining_moved::every_damage", met.all(), &checker);
}

/// A message of any sort, damaged or not.
fn any(chance: &mut Chance) -> Vec<u8> {
    let message = match chance.below(4) {
        0 => hostile::message(chance),
        1 => makers::run(chance, 0),
        _ => batches::by_chance(chance),
    };
    match chance.once_in(2) {
        true => damaged(chance, &message),
        false => message,
    }
}

#[test]
fn messages_by_chance() {
    let test = "explaining_moved::messages_by_chance";
    let mut met = Met::default();
    by_chance(test, 60, any, |checker, message| {
        by_the_others(checker, message, &mut met);
    });
    met.must_have(&[2, 3, 4, 5, 6, 7, 8, 9, 10, 11], 10);
}

/// Any message behind any other.
#[test]
fn one_behind_another_by_chance() {
    let test = "explaining_moved::one_behind_another_by_chance";
    let mut met = Met::default();
    let pair = |chance: &mut Chance| (any(chance), any(chance));
    by_chance(test, 150, pair, |checker, (before, message)| {
        let explained = explained_once(checker, message, &mut met);
        behind(checker, before, message, &explained);
    });
    met.must_have(&[2, 3, 4, 5, 6, 7, 8, 9, 10, 11], 10);
}
