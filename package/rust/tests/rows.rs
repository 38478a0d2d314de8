//! Rows of the standards, whose sections are named.
use irikit::Grammar::{Iri, Uri};
use irikit::{Error, Fault, Mode, Status, TemplateFault, Value};

/// RFC 3986 section 5.4.1, and 5.4.2 as a strict reader has it.
const RESOLVED: [(&str, &str); 33] = [
    ("g:h", "g:h"),
    ("g", "http://a/b/c/g"),
    ("./g", "http://a/b/c/g"),
    ("g/", "http://a/b/c/g/"),
    ("/g", "http://a/g"),
    ("//g", "http://g"),
    ("?y", "http://a/b/c/d;p?y"),
    ("g?y", "http://a/b/c/g?y"),
    ("#s", "http://a/b/c/d;p?q#s"),
    ("g#s", "http://a/b/c/g#s"),
    ("g?y#s", "http://a/b/c/g?y#s"),
    (";x", "http://a/b/c/;x"),
    ("g;x", "http://a/b/c/g;x"),
    ("g;x?y#s", "http://a/b/c/g;x?y#s"),
    ("", "http://a/b/c/d;p?q"),
    (".", "http://a/b/c/"),
    ("./", "http://a/b/c/"),
    ("..", "http://a/b/"),
    ("../", "http://a/b/"),
    ("../g", "http://a/b/g"),
    ("../..", "http://a/"),
    ("../../", "http://a/"),
    ("../../g", "http://a/g"),
    ("../../../g", "http://a/g"),
    ("/./g", "http://a/g"),
    ("/../g", "http://a/g"),
    ("g.", "http://a/b/c/g."),
    ("..g", "http://a/b/c/..g"),
    ("./../g", "http://a/b/g"),
    ("g/./h", "http://a/b/c/g/h"),
    ("g;x=1/../y", "http://a/b/c/y"),
    ("g?y/../x", "http://a/b/c/g?y/../x"),
    ("http:g", "http:g"),
];

#[test]
fn resolved() {
    let base = Uri.base("http://a/b/c/d;p?q").unwrap();
    let mut buffer = [0; 64];
    for (reference, wanted) in RESOLVED {
        assert_eq!(base.canonical(reference).as_deref(), Ok(wanted));
        assert_eq!(base.resolve(reference).as_deref(), Ok(wanted));
        assert_eq!(base.canonical_into(reference, &mut buffer), Ok(wanted));
        assert_eq!(base.resolve_into(reference, &mut buffer), Ok(wanted));
    }
    let each = base.canonical_each(RESOLVED.iter().map(|row| row.0));
    assert!(each
        .map(Result::unwrap)
        .eq(RESOLVED.iter().map(|row| row.1)));
}

#[test]
fn lines_in_one_call_and_in_many() {
    let base = Uri.base("http://a/b/c/d;p?q").unwrap();
    let lines: String = RESOLVED
        .iter()
        .map(|row| format!("{}\r\n", row.0))
        .collect::<String>()
        .repeat(500);
    for mut buffer in [Vec::new(), Vec::with_capacity(1 << 20)] {
        let texts = base.canonical_lines(&lines, &mut buffer);
        assert!(texts.map(Result::unwrap).eq(RESOLVED
            .iter()
            .map(|row| row.1)
            .cycle()
            .take(33 * 500)));
    }
    let mut buffer = Vec::new();
    let long = "x".repeat(100_000);
    assert!(base
        .canonical_lines(&format!("{long}\n%\n"), &mut buffer)
        .eq([Ok(&*format!("http://a/b/c/{long}")), Err("invalid path")]));
}

/// RFC 3987 section 3.1, and octets that were sent as octets.
#[test]
fn canonical_texts_as_uris() {
    let base = Iri.base("http://www.example.org:80/").unwrap();
    let host = "http://r\u{e9}sum\u{e9}.example.org";
    let rose = "red%09ros\u{e9}#red";
    assert_eq!(
        base.canonical_to_uri(host).unwrap(),
        "http://r%C3%A9sum%C3%A9.example.org"
    );
    assert_eq!(
        base.by_scheme().canonical_to_uri(rose).unwrap(),
        "http://www.example.org/red%09ros%C3%A9#red"
    );
}

/// The examples of RFC 3986 section 5.4 on their page and on another by turns; and docs/COMMANDS.md, `pairs`.
#[test]
fn pages_and_links() {
    let lines: String = RESOLVED
        .iter()
        .map(|row| format!("http://a/b/c/d;p?q\t{}\r\nhttp://A/\t//h\n", row.0))
        .collect();
    let wanted: String = RESOLVED
        .iter()
        .map(|row| format!("ok {}\nok http://h\n", row.1))
        .collect();
    assert_eq!(Uri.pairs(&lines.repeat(500)), wanted.repeat(500));
    let rows = [
        ("", ""),
        ("\n", "bad line\n"),
        ("a:", "bad line\n"),
        ("a:\t\r", "ok a:\n"),
        ("a:\tb\tc", "bad invalid path\n"),
        ("a:#\tb\na:\tb", "base unexpected fragment\nok a:b\n"),
        ("\u{feff}a:\tb", "base invalid scheme\n"),
    ];
    for (lines, wanted) in rows {
        assert_eq!(Uri.pairs(lines), wanted, "{lines:?}");
    }
    let long = "x".repeat(1 << 20);
    assert_eq!(
        Iri.pairs(&format!("a:/\t{long}")),
        format!("ok a:/{long}\n")
    );
}

/// docs/COMMANDS.md, Input: an LF ends a line, what follows the last LF is one where it has at least a byte, and one CR before the end
/// of a line isn't part of it.
#[test]
fn the_last_line() {
    let base = Uri.base("http://a/b/c/d;p?q").unwrap();
    let (g, own) = (Ok("http://a/b/c/g"), Ok("http://a/b/c/d;p?q"));
    let bad = Err("invalid path");
    let rows = [
        ("", vec![]),
        ("\n", vec![own]),
        ("\r", vec![own]),
        ("g", vec![g]),
        ("g\r", vec![g]),
        ("g\r\r", vec![bad]),
        ("g\n", vec![g]),
        ("g\n\n", vec![g, own]),
        ("g\ng", vec![g, g]),
        ("g\r\n%4", vec![g, bad]),
        ("%\ng\r", vec![bad, g]),
    ];
    for (lines, wanted) in rows {
        for mut buffer in [Vec::new(), Vec::with_capacity(1 << 20)] {
            assert!(
                base.canonical_lines(lines, &mut buffer)
                    .eq(wanted.iter().copied()),
                "{lines:?}"
            );
        }
    }
    for len in [4090, 4096, 1 << 20] {
        let lines = format!("g\n{}", "x".repeat(len));
        let long = format!("http://a/b/c/{}", &lines[2..]);
        assert!(base
            .canonical_lines(&lines, &mut Vec::new())
            .eq([g, Ok(&*long)]));
    }
}

#[test]
fn normal_forms() {
    // RFC 3986 sections 6.2.2 and 6.2.3, RFC 3987 section 5.3.2.3.
    let rows = [
        (
            Uri,
            "eXAMPLE://a/./b/../b/%63/%7bfoo%7d",
            Mode::Normal,
            "example://a/b/c/%7Bfoo%7D",
        ),
        (
            Uri,
            "http://example.com",
            Mode::ByScheme,
            "http://example.com/",
        ),
        (
            Uri,
            "http://example.com:80/",
            Mode::ByScheme,
            "http://example.com/",
        ),
        (
            Iri,
            "http://example.org/%7euser",
            Mode::Normal,
            "http://example.org/~user",
        ),
        (
            Iri,
            "http://www.example.org/D%C3%BCrst",
            Mode::Normal,
            "http://www.example.org/Dürst",
        ),
        (
            Iri,
            "http://www.example.org/D%FCrst",
            Mode::Normal,
            "http://www.example.org/D%FCrst",
        ),
    ];
    for (grammar, text, mode, wanted) in rows {
        assert_eq!(grammar.normalize(text, mode).as_deref(), Ok(wanted));
        assert_eq!(grammar.normalize_into(text, mode, &mut [0; 64]), Ok(wanted));
        assert_eq!(grammar.is_normalized(wanted, mode), Ok(true));
    }
    // RFC 3987 section 3.1.
    let mapped = irikit::map_to_uri("http://www.example.org/red%09rosé#red");
    assert_eq!(
        mapped.as_deref(),
        Ok("http://www.example.org/red%09ros%C3%A9#red")
    );
}

#[test]
fn parts() {
    // RFC 3986 sections 1.1.2 and 3.
    let all = Uri
        .split("foo://u:p@example.com:8042/over/there?name=ferret#nose")
        .unwrap();
    assert_eq!(
        (all.scheme, all.authority, all.path),
        (Some("foo"), Some("u:p@example.com:8042"), "/over/there")
    );
    assert_eq!(
        (all.query, all.fragment, all.userinfo),
        (Some("name=ferret"), Some("nose"), Some("u:p"))
    );
    assert_eq!((all.host, all.port), (Some("example.com"), Some("8042")));
    let few = Uri.split("urn:example:animal:ferret:nose").unwrap();
    assert_eq!(
        (few.scheme, few.authority, few.path),
        (Some("urn"), None, "example:animal:ferret:nose")
    );
    assert_eq!(
        (few.query, few.fragment, few.userinfo, few.host, few.port),
        (None, None, None, None, None)
    );
    let empty = Uri.split("//@:?#").unwrap();
    assert_eq!(
        (
            empty.userinfo,
            empty.host,
            empty.port,
            empty.query,
            empty.fragment
        ),
        (Some(""), Some(""), Some(""), Some(""), Some(""))
    );
    assert_eq!(empty.segments().count(), 0);
    assert_eq!(
        Iri.split("//a/é/b").unwrap().segments().collect::<Vec<_>>(),
        ["é", "b"]
    );
}

#[test]
fn expansions() {
    // RFC 6570 section 3.2, with its variables.
    let variables = [
        ("hello", Value::from("Hello World!")),
        ("list", Value::List(&["red", "green", "blue"])),
        (
            "keys",
            Value::Pairs(&[("semi", ";"), ("dot", "."), ("comma", ",")]),
        ),
        ("x", "1024".into()),
        ("empty", "".into()),
        ("undef", Value::Undefined),
    ];
    let rows = [
        ("{hello}", "Hello%20World%21"),
        ("{+hello}", "Hello%20World!"),
        ("{/list*}", "/red/green/blue"),
        ("{&keys*}", "&semi=%3B&dot=.&comma=%2C"),
        ("{;x,empty,undef}", ";x=1024;empty"),
        ("{?undef}", ""),
    ];
    for (template, wanted) in rows {
        assert_eq!(Uri.expand(template, &variables).as_deref(), Ok(wanted));
        assert_eq!(
            Uri.expand_into(template, &variables, &mut [0; 64]),
            Ok(wanted)
        );
    }
    assert_eq!(
        Uri.expand_into("{hello}", &variables, &mut [0; 4]),
        Err(Error::Short(16))
    );
    assert_eq!(
        Uri.expand("{=v}", &[]),
        Err(Error::Template(TemplateFault::UNSUPPORTED_OPERATOR, 1))
    );
    assert_eq!(
        Uri.expand("{list:1}", &variables),
        Err(Error::Template(TemplateFault::UNEXPECTED_VALUE_TYPE, 1))
    );
}

#[test]
fn refusals() {
    assert_eq!(
        Uri.base("a/b"),
        Err(Error::Base(Fault::UNEXPECTED_RELATIVE))
    );
    assert_eq!(
        Uri.base("http://a/#f"),
        Err(Error::Base(Fault::UNEXPECTED_FRAGMENT))
    );
    assert_eq!(Uri.split("##"), Err(Error::Text(Fault::INVALID_FRAGMENT)));
    assert_eq!(
        Uri.with_fragment("a", Some("#")),
        Err(Error::Part(Fault::INVALID_FRAGMENT))
    );
    assert_eq!(
        Uri.is_normalized("a", Mode::Normal),
        Err(Error::Text(Fault::UNEXPECTED_RELATIVE))
    );
    assert_eq!(
        Uri.encode_into("a b", irikit::Place::Query, &mut [0; 4]),
        Err(Error::Short(5))
    );
    assert_eq!(Uri.steps("a"), Err(Error::Text(Fault::UNEXPECTED_RELATIVE)));
    assert_eq!(Uri.steps("http://a:80").as_deref(), Ok(&[][..]));
    assert_eq!(
        Uri.base("a:").unwrap().target("%"),
        Err(Error::Reference(Fault::INVALID_PATH))
    );
    assert_eq!(Uri.with_host("a", "b"), Err(Error::NoHost));
    assert_eq!(Uri.with_reg_name("//192.0.2.16/", "a"), Err(Error::NoHost));
    assert_eq!(Uri.with_reg_name("//h/", "a").as_deref(), Ok("//a/"));
    assert_eq!(
        Uri.build(irikit::Kind::WithScheme, &[]),
        Err(Error::Part(Fault::UNEXPECTED_RELATIVE))
    );
    let fault = TemplateFault::EXPRESSION_NOT_CLOSED;
    assert_eq!(
        irikit::template_variables("/s{"),
        Err(Error::Template(fault, 2))
    );
    let error: Box<dyn std::error::Error> = Box::new(Uri.base("a/b").unwrap_err());
    assert_eq!(
        error.to_string(),
        "the base: expected an absolute IRI but got a relative IRI"
    );
    let error = Uri.expand("x{y", &[]).unwrap_err();
    assert_eq!(
        error.to_string(),
        "the template: expression not closed at 1"
    );
}

#[test]
fn the_program() {
    let version = format!("irikit {}\n", env!("CARGO_PKG_VERSION").replace('-', "~"));
    assert_eq!(irikit::run("--version", ""), (Status::Done, version));
    // docs/COMMANDS.md, gen.
    assert_eq!(
        irikit::run("gen uri 1", ""),
        (Status::Done, "lines 1\nbytes 15\nsum 1183\n".into())
    );
    assert_eq!(irikit::run("canon", ""), (Status::NoCommand, String::new()));
    assert_eq!(
        irikit::run("canon uri", "a"),
        (
            Status::BadBase,
            "base expected an absolute IRI but got a relative IRI\n".into()
        )
    );
    assert_eq!(
        irikit::run_into("gen uri 1", b"", &mut [0; 4]).0,
        Status::Short
    );
}

#[test]
fn values() {
    use irikit::{Iri, IriReference, Uri, UriReference};
    use std::collections::{BTreeSet, HashMap};

    // RFC 3986 section 4.1, RFC 3987 section 2.2.
    let reference: UriReference = "a/b?q".parse().unwrap();
    assert_eq!(
        Uri::try_from(reference.clone()),
        Err(Error::Text(Fault::UNEXPECTED_RELATIVE))
    );
    assert_eq!(
        "/é".parse::<UriReference>(),
        Err(Error::Text(Fault::INVALID_PATH))
    );
    let iri: IriReference = reference.clone().into();
    assert_eq!((iri.as_str(), iri.to_uri()), ("a/b?q", reference));
    let name: Iri = "http://a/é".parse().unwrap();
    assert_eq!(name.to_uri().as_str(), "http://a/%C3%A9");

    // Ordered and hashed as their texts, and looked up by these.
    let uris = ["http://b/", "HTTP://b/", "http://a/"].map(|text| text.parse::<Uri>().unwrap());
    let ordered: BTreeSet<&Uri> = uris.iter().collect();
    assert!(ordered
        .iter()
        .map(|uri| uri.as_str())
        .eq(["HTTP://b/", "http://a/", "http://b/"]));
    let places: HashMap<Uri, usize> = uris.iter().cloned().zip(0..).collect();
    assert_eq!(places.get("http://a/"), Some(&2));
    assert_eq!(
        format!("{} {:?}", uris[0], uris[1]),
        "http://b/ Uri(\"HTTP://b/\")"
    );
    assert_eq!(String::from(uris[0].clone()), "http://b/");

    // RFC 3986 section 5.1: the base is without its fragment. Section 3.2.2: a host, and none.
    let page: Uri = "http://a/b?q#f".parse().unwrap();
    assert_eq!(page.base().as_str(), "http://a/b?q");
    assert_eq!(
        page.join("").map(String::from).as_deref(),
        Ok("http://a/b?q")
    );
    assert_eq!(page.join("%"), Err(Error::Reference(Fault::INVALID_PATH)));
    assert_eq!(page.with_host("a b"), Err(Error::Part(Fault::INVALID_HOST)));
    assert_eq!(
        "urn:a".parse::<Uri>().unwrap().with_host("b"),
        Err(Error::NoHost)
    );
    assert_eq!(page.with_fragment(None).unwrap().as_str(), "http://a/b?q");
    assert_eq!(
        format!("{:?}", page.with_fragment(Some("#"))),
        "Err(Part(invalid fragment))"
    );
}

/// RFC 3986 section 5.4, by eight threads over one base, each with a buffer of its own.
#[test]
fn threads() {
    let base = Uri.base("http://a/b/c/d;p?q").unwrap();
    std::thread::scope(|scope| {
        for _ in 0..8 {
            scope.spawn(|| {
                let mut buffer = Vec::new();
                for (reference, wanted) in RESOLVED.repeat(200) {
                    assert_eq!(base.canonical(reference).as_deref(), Ok(wanted));
                    assert!(base
                        .canonical_lines(reference, &mut buffer)
                        .eq(match reference {
                            "" => vec![],
                            _ => vec![Ok(wanted)],
                        }));
                }
            });
        }
    });
}
