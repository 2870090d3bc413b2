//! Answers one request a line from standard input; see `second::command`.

#![forbid(unsafe_code)]

use std::io::{self, BufRead, BufReader, BufWriter, Write};

fn main() -> io::Result<()> {
    let mut requests = BufReader::with_capacity(1 << 16, io::stdin());
    let mut answers = BufWriter::with_capacity(1 << 16, io::stdout());
    let mut line = Vec::new();
    while requests.read_until(b'\n', &mut line)? > 0 {
        let answer = second::command::answer(&String::from_utf8_lossy(&line));
        writeln!(answers, "{answer}")?;
        line.clear();
        // Whoever waits for an answer before the next request gets it.
        if requests.buffer().is_empty() {
            answers.flush()?;
        }
    }
    answers.flush()
}
