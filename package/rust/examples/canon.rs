//! Answers lines as `irikit canon` does, and ends with its status: the first line is the base, each further line a reference.
//!
//! usage: canon uri|iri [scheme] <LINES
use irikit::{Base, Error, Fault, Grammar};
use std::io::{self, BufRead, Write};
use std::process::exit;
use std::{env, str};

/// The grammar, and whether scheme rules are followed too; none where the words are no command.
fn command(words: &[String]) -> Option<(Grammar, bool)> {
    let grammar = match words.first()?.as_str() {
        "uri" => Grammar::Uri,
        "iri" => Grammar::Iri,
        _ => return None,
    };
    match &words[1..] {
        [] => Some((grammar, false)),
        [word] if word == "scheme" => Some((grammar, true)),
        _ => None,
    }
}

/// A line without the CR before its end.
fn text(line: &[u8]) -> Result<&str, Fault> {
    str::from_utf8(line.strip_suffix(b"\r").unwrap_or(line)).map_err(|_| Fault::INVALID_UTF8)
}

fn canonical(base: &Base, line: &[u8]) -> Result<String, Error> {
    base.canonical(text(line).map_err(Error::Reference)?)
}

fn main() -> io::Result<()> {
    let words: Vec<String> = env::args().skip(1).collect();
    let (grammar, by_scheme) = command(&words).unwrap_or_else(|| exit(2));
    let mut lines = io::stdin().lock().split(b'\n');
    let mut out = io::BufWriter::new(io::stdout().lock());
    let first = lines.next().unwrap_or_else(|| Ok(Vec::new()))?;
    let base = match text(&first)
        .map_err(Error::Base)
        .and_then(|text| grammar.base(text))
    {
        Ok(base) if by_scheme => base.by_scheme(),
        Ok(base) => base,
        Err(Error::Base(fault)) => {
            writeln!(out, "base {fault}")?;
            out.flush()?;
            exit(3)
        }
        Err(error) => unreachable!("{error}"),
    };
    let mut status = 0;
    for line in lines {
        match canonical(&base, &line?) {
            Ok(text) => writeln!(out, "ok {text}")?,
            Err(Error::Reference(fault)) => {
                status = 1;
                writeln!(out, "bad {fault}")?;
            }
            Err(error) => unreachable!("{error}"),
        }
    }
    out.flush()?;
    exit(status)
}
