#![doc = include_str!("../README.md")]
#![warn(missing_docs)]

mod base;
mod fault;
mod ffi;
mod grammar;
mod parts;
mod run;
mod template;
mod text;
mod written;

pub use base::{Base, CanonicalEach, Lines};
pub use fault::{Error, Fault, TemplateFault};
pub use grammar::{decode, map_to_uri, template_variables, Grammar, Kind, Mode, Part, Place};
pub use parts::Parts;
pub use run::{run, run_into, Status};
pub use template::Value;
pub use text::{Iri, IriReference, Uri, UriReference};

/// The version of the library that runs: 10000 times its first number, 100 times its second, and its third.
///
/// ```
/// assert_eq!(irikit::library_version() / 100, 2, "0.2");
/// ```
#[must_use]
pub fn library_version() -> u32 {
    unsafe { ffi::irikit_version() }
}
