//! oxiri: validates and resolves, and doesn't normalize.
mod lines;

fn main() -> std::process::ExitCode {
    lines::run(
        |base| oxiri::Iri::parse(base.to_owned()).ok(),
        |base, reference, text| base.resolve_into(reference, text).is_ok(),
    )
}
