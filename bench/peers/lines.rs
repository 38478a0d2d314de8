//! The loop of the drivers in Rust: the first line of standard input is the base, each further line a reference, and each
//! reference gets a line `ok TEXT` or `bad`.
use std::io::{BufRead, BufReader, BufWriter, Write, stdin, stdout};
use std::process::ExitCode;

const BLOCK: usize = 65536;

fn next_line(input: &mut impl BufRead, line: &mut Vec<u8>) -> bool {
    line.clear();
    if !matches!(input.read_until(b'\n', line), Ok(1..)) {
        return false;
    }
    if line.last() == Some(&b'\n') {
        line.pop();
    }
    if line.last() == Some(&b'\r') {
        line.pop();
    }
    true
}

/// `resolve` puts the target of a reference against a base into the text, or answers false.
pub fn run<B>(base_of: impl Fn(&str) -> Option<B>, resolve: impl Fn(&B, &str, &mut String) -> bool) -> ExitCode {
    let mut input = BufReader::with_capacity(BLOCK, stdin().lock());
    let mut output = BufWriter::with_capacity(BLOCK, stdout().lock());
    let (mut line, mut text) = (Vec::new(), String::new());
    if !next_line(&mut input, &mut line) {
        return ExitCode::from(3);
    }
    let Some(base) = std::str::from_utf8(&line).ok().and_then(base_of) else {
        return ExitCode::from(3);
    };
    while next_line(&mut input, &mut line) {
        text.clear();
        let is_good = std::str::from_utf8(&line).is_ok_and(|reference| resolve(&base, reference, &mut text));
        let written = if is_good {
            output
                .write_all(b"ok ")
                .and_then(|()| output.write_all(text.as_bytes()))
                .and_then(|()| output.write_all(b"\n"))
        } else {
            output.write_all(b"bad\n")
        };
        if written.is_err() {
            return ExitCode::from(5);
        }
    }
    if output.flush().is_ok() { ExitCode::SUCCESS } else { ExitCode::from(5) }
}
