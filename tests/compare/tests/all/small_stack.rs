//! Every call of the library is made in a thread with a small stack.

use crate::chance::Chance;
use crate::checker::Checker;
use std::thread;

const SMALL_STACK: usize = 64 * 1024;

/// How many messages or tables made by chance are checked in one thread.
pub const AT_ONCE: usize = 1_000;

/// Does work with a checker in a small stack, then fails here if anything did.
/// What makes messages and tables by going down into them stays outside.
pub fn in_small_stack(checker: &mut Checker, work: impl FnOnce(&mut Checker) + Send) {
    thread::scope(|scope| {
        let small = thread::Builder::new()
            .name("a small stack".into())
            .stack_size(SMALL_STACK);
        let within = &mut *checker;
        let thread = small.spawn_scoped(scope, move || work(within));
        let ended = thread.expect("a thread").join();
        ended.expect("work that comes to its end");
    });
    checker.must_agree();
}

/// Does work in a small stack, then in that of this thread.
pub fn in_both_stacks(checker: &mut Checker, work: impl Fn(&mut Checker) + Send + Sync) {
    in_small_stack(checker, &work);
    work(checker);
    checker.must_agree();
}

/// So many rounds, times the number in the environment variable ROUNDS.
pub fn rounds(usual: usize) -> usize {
    let times = std::env::var("ROUNDS").ok();
    let times: f64 = times.and_then(|times| times.parse().ok()).unwrap_or(1.0);
    (usual as f64 * times).ceil() as usize
}

/// Tells how much a test has compared.
pub fn report(test: &str, cases: u64, checker: &Checker) {
    println!("{test}: {cases} cases, {} calls", checker.calls);
}

/// Checks many messages, or other cases, that a maker makes by chance.
pub fn by_chance<T: Sync>(
    test: &str,
    usual: usize,
    mut make: impl FnMut(&mut Chance) -> T,
    mut check: impl FnMut(&mut Checker, &T) + Send,
) {
    let mut chance = Chance::seeded(test);
    let mut checker = Checker::new();
    let rounds = rounds(usual);
    for _ in 0..rounds {
        let cases: Vec<_> = (0..AT_ONCE).map(|_| make(&mut chance)).collect();
        in_small_stack(&mut checker, |checker| {
            cases.iter().for_each(|case| check(checker, case));
        });
    }
    report(test, (rounds * AT_ONCE) as u64, &checker);
}
