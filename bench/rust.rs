//! The calls of the package for Rust beside those of the crate url, over the lines of standard input, of which the first one is the
//! base: how often each is made in a second of processor time. Its word says how often each goes over them.
use irikit::{Base, Uri};
use std::hint::black_box;
use std::io::Read;
use std::os::raw::c_long;
use url::Url;

extern "C" {
    /// Processor time of the program, in millionths of a second.
    fn clock() -> c_long;
}

/// What is done, with what, and how.
type Row<'a> = (&'a str, &'a str, Box<dyn FnMut() + 'a>);

/// A call for each text.
fn each<'a, T>(texts: &'a [String], call: impl Fn(&'a str) -> T + 'a) -> Box<dyn FnMut() + 'a> {
    Box::new(move || {
        for text in texts {
            let _ = black_box(call(text));
        }
    })
}

fn with_parts(text: &str) -> usize {
    let uri: Uri = text.parse().expect("a link");
    let parts = uri.parts();
    let some = [parts.host, parts.port, parts.query, parts.fragment];
    parts.scheme.map_or(0, str::len)
        + parts.path.len()
        + some.iter().flatten().map(|part| part.len()).sum::<usize>()
}

fn url_with_parts(text: &str) -> usize {
    let url = Url::parse(text).expect("a link");
    let some = [url.host_str(), url.query(), url.fragment()];
    url.scheme().len()
        + url.path().len()
        + usize::from(url.port().is_some())
        + some.iter().flatten().map(|part| part.len()).sum::<usize>()
}

fn rows<'a>(
    base: &'a Base,
    page: &'a Uri,
    url: &'a Url,
    links: &'a [String],
    whole: &'a [String],
) -> Vec<Row<'a>> {
    let (lines, canonical) = (links.join("\n"), "resolve, and put into normal form");
    let (mut buffer, mut many) = ([0; 4096], Vec::new());
    let taken = "take a link with its six parts";
    vec![
        (
            canonical,
            "irikit `Base::canonical`",
            each(links, |link| base.canonical(link)),
        ),
        (
            canonical,
            "irikit `Base::canonical_into`",
            Box::new(move || {
                for link in links {
                    let _ = black_box(base.canonical_into(link, &mut buffer));
                }
            }),
        ),
        (
            canonical,
            "irikit `Base::canonical_lines`, a link",
            Box::new(move || {
                for text in base.canonical_lines(&lines, &mut many) {
                    let _ = black_box(text);
                }
            }),
        ),
        (
            "resolve",
            "irikit `Base::resolve`",
            each(links, |link| base.resolve(link)),
        ),
        (
            "resolve",
            "irikit `Uri::join`",
            each(links, |link| page.join(link)),
        ),
        (
            "resolve",
            "url `Url::join`",
            each(links, |link| url.join(link)),
        ),
        (taken, "irikit `Uri`", each(whole, with_parts)),
        (taken, "url `Url`", each(whole, url_with_parts)),
    ]
}

fn main() {
    let times: usize = std::env::args()
        .nth(1)
        .and_then(|word| word.parse().ok())
        .expect("how often");
    let mut text = String::new();
    std::io::stdin().read_to_string(&mut text).expect("lines");
    let (first, rest) = text.split_once('\n').expect("a base");
    let links: Vec<String> = rest.lines().map(String::from).collect();
    let page: Uri = first.parse().expect("a base");
    let (base, url) = (page.base(), Url::parse(first).expect("a base"));
    let whole: Vec<String> = links
        .iter()
        .map(|link| base.resolve(link).expect("a link"))
        .collect();
    let mut rows = rows(&base, &page, &url, &links, &whole);
    let mut least = vec![c_long::MAX; rows.len()];
    for _ in 0..times {
        for ((_, _, call), least) in rows.iter_mut().zip(&mut least) {
            let begun = unsafe { clock() };
            call();
            *least = (*least).min(unsafe { clock() } - begun);
        }
    }
    for ((what, with, _), least) in rows.iter().zip(least) {
        println!(
            "| {what} | {with} | {} |",
            with_commas(links.len() as u64 * 1_000_000 / least as u64)
        );
    }
}

fn with_commas(number: u64) -> String {
    let digits = number.to_string();
    let first = (digits.len() + 2) % 3 + 1;
    let rest = digits[first..]
        .as_bytes()
        .chunks(3)
        .map(|three| format!(",{}", String::from_utf8_lossy(three)));
    digits[..first].to_string() + &rest.collect::<String>()
}
