//! All short runs over some choices.

/// Calls with every run of `length` choices.
pub fn every_run<T: Copy>(choices: &[T], length: u32, mut call: impl FnMut(&[T])) {
    let mut run = vec![choices[0]; length as usize];
    for number in 0..choices.len().pow(length) {
        put_run(&mut run, choices, number);
        call(&run);
    }
}

/// Puts the run with this number, counting them all from 0.
fn put_run<T: Copy>(run: &mut [T], choices: &[T], mut number: usize) {
    for element in run {
        *element = choices[number % choices.len()];
        number /= choices.len();
    }
}

/// Every first with every second.
pub fn pairs<T: Copy>(firsts: &[T], seconds: &[T]) -> Vec<(T, T)> {
    let with = |first: T| seconds.iter().map(move |&second| (first, second));
    firsts.iter().flat_map(|&first| with(first)).collect()
}
