//! url: the URL Standard's parser, which mends much of what RFC 3986 refuses, and puts hosts through IDNA.
mod lines;

fn main() -> std::process::ExitCode {
    lines::run(
        |base| url::Url::parse(base).ok(),
        |base, reference, text| match base.join(reference) {
            Ok(target) => {
                text.push_str(target.as_str());
                true
            }
            Err(_) => false,
        },
    )
}
