//! Reading messages that would cost a careless reader much time or stack. The
//! times are told and nothing is made of them.

use crate::checker::Checker;
use crate::hostile_messages::{messages, Hostile, Size};
use crate::rooms::AMPLE_WORDS;
use crate::small_stack::in_both_stacks;
use compare::library::{self, Empty};
use std::time::Instant;

#[test]
fn hostile_messages() {
    let mut checker = Checker::new();
    let whole = messages(Size::Whole);
    let quarters = messages(Size::Quarter);
    in_both_stacks(&mut checker, |checker| {
        for hostile in &whole {
            let answer = checker.reading(&hostile.message, AMPLE_WORDS);
            let due = answer.number == hostile.number;
            checker.must(due, || format!("{}: {answer:?}", hostile.name));
        }
        for hostile in whole.iter().chain(&quarters) {
            checker.reading_in_every_room(&hostile.message);
        }
    });
    whole.iter().for_each(tell_time);
}

/// Tells the shortest of a few times, for each byte read and word written.
fn tell_time(hostile: &Hostile) {
    let message = &hostile.message;
    let mut table = vec![0; AMPLE_WORDS];
    let mut once = || {
        let start = Instant::now();
        let answer = library::read(message, &mut table, Empty::AsItIs);
        (start.elapsed().as_nanos() as f64, answer.words)
    };
    let times = [once(), once(), once(), once(), once()];
    let shortest = times
        .iter()
        .map(|time| time.0)
        .fold(f64::INFINITY, f64::min);
    let work = message.len() as f64 + times[0].1 as f64;
    println!(
        "{}: {shortest} ns, {:.2} for each byte and word",
        hostile.name,
        shortest / work
    );
}
