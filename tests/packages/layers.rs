//! The requests of tests/packages/layers by the crate for Rust, in as many threads as the first argument says. What isn't UTF-8 is no text here.
use irikit::{decode, map_to_uri, template_variables, Base, Error, Grammar, Kind, Mode, Part, Place, Value};
use std::io::{read_to_string, stdin, stdout, Write};

fn bytes(word: &str) -> Vec<u8> {
    let digits = if word == "." || word == "~" { "" } else { word };
    (0..digits.len()).step_by(2).map(|at| u8::from_str_radix(&digits[at..at + 2], 16).expect("hex")).collect()
}

fn hex(text: impl AsRef<[u8]>) -> String {
    let digits: String = text.as_ref().iter().map(|byte| format!("{byte:02x}")).collect();
    if digits.is_empty() { ".".into() } else { digits }
}

fn mode(name: &str) -> Mode {
    match name {
        "scheme" => Mode::ByScheme,
        "preserving" => Mode::Preserving,
        _ => Mode::Normal,
    }
}

fn kind(name: &str) -> Kind {
    match name {
        "with-scheme" => Kind::WithScheme,
        "absolute" => Kind::Absolute,
        "relative" => Kind::Relative,
        _ => Kind::Reference,
    }
}

fn place(name: &str) -> Place {
    match name {
        "reg-name" => Place::RegName,
        "user" => Place::User,
        "segment" => Place::Segment,
        "path" => Place::Path,
        "query" => Place::Query,
        "fragment" => Place::Fragment,
        "anywhere" => Place::Anywhere,
        _ => Place::Reference,
    }
}

const PARTS: [Part; 7] = [Part::Scheme, Part::Userinfo, Part::Host, Part::Port, Part::Path, Part::Query, Part::Fragment];

fn base(grammar: Grammar, text: &str, name: &str) -> Result<Base, Error> {
    let base = grammar.base(text)?;
    Ok(if name == "scheme" { base.by_scheme() } else { base })
}

fn expanded(grammar: Grammar, name: &str, texts: &[Option<&str>]) -> Result<String, Error> {
    let values: Vec<&str> = texts[1..].iter().flatten().copied().collect();
    let pairs: Vec<(&str, &str)> = values.chunks_exact(2).map(|pair| (pair[0], pair[1])).collect();
    let value = match name {
        "s" => Value::Text(values[0]),
        "l" => Value::List(&values),
        _ => Value::Pairs(&pairs),
    };
    grammar.expand(texts[0].unwrap_or_default(), &[("v", value)])
}

fn lines(base: &Base, text: &str) -> String {
    let mut buffer = Vec::new();
    let answers = base.canonical_lines(text, &mut buffer);
    answers.map(|answer| answer.map_or_else(|words| format!("bad {words}\n"), |text| format!("ok {text}\n"))).collect()
}

/// What a call that writes a text says.
fn written(call: &str, grammar: Grammar, option: &str, t: &[Option<&str>]) -> Result<String, Error> {
    let (one, two) = (t[0].unwrap_or_default(), t.get(1).copied().flatten());
    let other = two.unwrap_or_default();
    Ok(hex(match call {
        "pairs" if option == "scheme" => grammar.pairs_by_scheme(one),
        "pairs" => grammar.pairs(one),
        "canonical" => base(grammar, one, option)?.canonical(other)?,
        "uri" => base(Grammar::Iri, one, option)?.canonical_to_uri(other)?,
        "resolve" => grammar.base(one)?.resolve(other)?,
        "target" => grammar.base(one)?.target(other)?,
        "normalize" => grammar.normalize(one, mode(option))?,
        "steps" if option == "scheme" => grammar.steps_by_scheme(one)?.into_iter().map(|step| step + "\n").collect(),
        "steps" => grammar.steps(one)?.into_iter().map(|step| step + "\n").collect(),
        "map" => map_to_uri(one)?,
        "encode" => grammar.encode(one, place(option)),
        "decode" => return Ok(hex(decode(one))),
        "mask" => grammar.mask_password(one)?,
        "remove" => grammar.without_password(one)?,
        "password" => grammar.replace_password(one, other)?,
        "fragment" => grammar.with_fragment(one, two)?,
        "host" => grammar.with_host(one, other)?,
        "name" => grammar.with_reg_name(one, other)?,
        "build" => grammar.build(kind(option), &PARTS.into_iter().zip(t).filter_map(|(part, text)| Some((part, (*text)?))).collect::<Vec<_>>())?,
        "expand" => expanded(grammar, option, t)?,
        _ => lines(&base(grammar, one, option)?, other),
    }))
}

fn fault(grammar: Grammar, option: &str, text: &str) -> String {
    match grammar.validate(kind(option), text) {
        Ok(()) => "ok".into(),
        Err(fault) => {
            let part = fault.part_of(text, kind(option)).map(|part| format!(" {} {}", part.start, part.len()));
            format!("no text {}{}", hex(fault.to_string()), part.unwrap_or_default())
        }
    }
}

fn said(call: &str, grammar: Grammar, option: &str, t: &[Option<&str>]) -> Result<String, Error> {
    let text = t[0].unwrap_or_default();
    Ok(match call {
        "fault" => return Ok(fault(grammar, option, text)),
        "normal" => format!("ok {}", if grammar.is_normalized(text, mode(option))? { "yes" } else { "no" }),
        "many" => {
            let base = base(grammar, text, option)?;
            let many = base.canonical_each(t[1..].iter().flatten());
            many.fold("ok".into(), |all, one| format!("{all} {}", one.map_or("~".into(), hex)))
        }
        "names" => template_variables(text)?.iter().fold("ok".into(), |all, name| format!("{all} {}", hex(name))),
        "split" => {
            let p = grammar.split(text)?;
            let parts = [p.scheme, p.authority, Some(p.path), p.query, p.fragment, p.userinfo, p.host, p.port];
            parts.iter().fold("ok".into(), |all, part| format!("{all} {}", part.map_or("~".into(), hex)))
        }
        _ => format!("ok {}", written(call, grammar, option, t)?),
    })
}

fn answer(line: &str) -> String {
    let words: Vec<&str> = line.split(' ').collect();
    let texts: Option<Vec<Option<String>>> =
        words[3..].iter().map(|word| if *word == "~" { Some(None) } else { String::from_utf8(bytes(word)).ok().map(Some) }).collect();
    let Some(texts) = texts else { return "skip".into() };
    let texts: Vec<Option<&str>> = texts.iter().map(Option::as_deref).collect();
    let grammar = if words[1] == "uri" { Grammar::Uri } else { Grammar::Iri };
    said(words[0], grammar, words[2], &texts).unwrap_or_else(|error| match error {
        Error::Text(fault) => format!("no text {}", hex(fault.to_string())),
        Error::Base(fault) => format!("no base {}", hex(fault.to_string())),
        Error::Reference(fault) => format!("no reference {}", hex(fault.to_string())),
        Error::Part(fault) => format!("no part {}", hex(fault.to_string())),
        Error::Template(fault, at) => format!("no template {at} {}", hex(fault.to_string())),
        Error::NoHost => "no host".into(),
        other => format!("other {other}"),
    })
}

fn main() {
    let threads: usize = std::env::args().nth(1).and_then(|word| word.parse().ok()).unwrap_or(1);
    let given = read_to_string(stdin()).expect("requests");
    let lines: Vec<&str> = given.lines().collect();
    let answers: Vec<String> = std::thread::scope(|scope| {
        let work = |chunk: &[&str]| chunk.iter().map(|line| answer(line) + "\n").collect::<String>();
        let all: Vec<_> = lines.chunks(lines.len() / threads + 1).map(|chunk| scope.spawn(move || work(chunk))).collect();
        all.into_iter().map(|one| one.join().expect("a thread")).collect()
    });
    stdout().write_all(answers.concat().as_bytes()).expect("answers");
}
