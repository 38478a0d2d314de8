//! Says where the library for C is: in the folder that `IRIKIT_LIB_DIR` names, or where pkg-config finds it. What isn't linked
//! (`cargo check`, `cargo doc`) needs none, so where there is none that is a warning, and the linker's fault later.
use std::env;
use std::process::Command;

const WANTED: &str = "install libirikit-dev, or name the library's folder in IRIKIT_LIB_DIR";
/// The versions of the library that the crate is for.
const SERIES: &str = concat!(
    env!("CARGO_PKG_VERSION_MAJOR"),
    ".",
    env!("CARGO_PKG_VERSION_MINOR"),
    "."
);

fn main() {
    for name in ["IRIKIT_LIB_DIR", "PKG_CONFIG", "PKG_CONFIG_PATH"] {
        println!("cargo:rerun-if-env-changed={name}");
    }
    match env::var("IRIKIT_LIB_DIR").or_else(|_| found()) {
        Ok(folder) => println!("cargo:rustc-link-search=native={folder}"),
        Err(why) => {
            println!("cargo:warning=no library irikit: {WANTED} ({why})");
            // No such file: cargo asks again at each build, until there is a library.
            println!("cargo:rerun-if-changed=no-library");
        }
    }
    let kind = if env::var_os("CARGO_FEATURE_STATIC").is_some() {
        "static"
    } else {
        "dylib"
    };
    println!("cargo:rustc-link-lib={kind}=irikit");
}

/// The folder of the library that pkg-config finds.
fn found() -> Result<String, String> {
    let tool = env::var("PKG_CONFIG").unwrap_or_else(|_| "pkg-config".into());
    let ask = |what: &str| match Command::new(&tool).args([what, "irikit"]).output() {
        Ok(said) if said.status.success() => {
            Ok(String::from_utf8_lossy(&said.stdout).trim().to_string())
        }
        Ok(said) => Err(format!("{tool}: {}", said.status)),
        Err(error) => Err(format!("{tool}: {error}")),
    };
    let version = ask("--modversion")?;
    assert!(
        version.starts_with(SERIES),
        "the library irikit is {version}, and the crate is for {SERIES}*: {WANTED}"
    );
    ask("--variable=libdir")
}
