//! Runs of numbers as the vectors write them, for what a failure prints.

/// Bytes in hexadecimal; `80*30` is thirty times the same.
pub fn bytes(bytes: &[u8]) -> String {
    run(bytes, |byte| format!("{byte:02X}"))
}

/// Words in decimal, or in hexadecimal if they are large.
pub fn words(words: &[u64]) -> String {
    run(words, |&word| match word {
        0..=999_999 => word.to_string(),
        _ => format!("0x{word:X}"),
    })
}

fn run<T: PartialEq>(numbers: &[T], one: impl Fn(&T) -> String) -> String {
    let stretches = numbers.chunk_by(|first, second| first == second);
    let told = stretches.map(|stretch| match stretch.len() {
        1 => one(&stretch[0]),
        times => format!("{}*{times}", one(&stretch[0])),
    });
    told.collect::<Vec<_>>().join(" ")
}

#[test]
fn a_failure_is_told_as_vectors_are_written() {
    assert_eq!(bytes(&[0xC2, 2, 0x80, 0x80]), "C2 02 80*2");
    assert_eq!(words(&[4, 4, 4, u64::MAX]), "4*3 0xFFFFFFFFFFFFFFFF");
}
