//! Why a text is refused.
use crate::grammar::at;
use crate::written::words;
use crate::{ffi, Kind};
use std::fmt;
use std::ops::Range;

/// The first fault of a text, from the left. Its words are those of the program `irikit`.
///
/// ```
/// use irikit::{Error, Fault, Grammar};
///
/// let error = Grammar::Uri.split("http://a b/").unwrap_err();
/// assert_eq!(error, Error::Text(Fault::INVALID_HOST));
/// assert_eq!(Fault::INVALID_HOST.to_string(), "invalid host");
/// assert_eq!(format!("{error:?}"), "Text(invalid host)");
/// ```
#[derive(Clone, Copy, PartialEq, Eq, Hash)]
pub struct Fault(usize);

/// The first fault of a template, from the left (RFC 6570 section 2).
#[derive(Clone, Copy, PartialEq, Eq, Hash)]
pub struct TemplateFault(usize);

/// What a call refuses.
#[derive(Debug, Clone, Copy, PartialEq, Eq, Hash)]
#[non_exhaustive]
pub enum Error {
    /// The text.
    Text(Fault),
    /// The base.
    Base(Fault),
    /// The reference; the base is valid.
    Reference(Fault),
    /// What is to stand in the text; the text is valid.
    Part(Fault),
    /// The template, at this byte.
    Template(TemplateFault, usize),
    /// The text has no host, or none of the kind that may be replaced.
    NoHost,
    /// The caller's buffer: this many bytes are needed.
    Short(usize),
}

macro_rules! numbers {
    ($kind:ident: $($(#[$doc:meta])* $name:ident = $number:literal;)*) => {
        #[allow(missing_docs)]
        impl $kind {
            $($(#[$doc])* pub const $name: $kind = $kind($number);)*
        }
    };
}

numbers! { Fault:
    INVALID_SCHEME = 500;
    INVALID_USERINFO = 501;
    INVALID_HOST = 502;
    INVALID_REG_NAME = 503;
    INVALID_PORT = 504;
    INVALID_PATH = 505;
    INVALID_QUERY = 506;
    INVALID_FRAGMENT = 507;
    /// A fragment in an absolute URI.
    UNEXPECTED_FRAGMENT = 508;
    /// No scheme where one must stand.
    UNEXPECTED_RELATIVE = 509;
    INVALID_UTF8 = 510;
}

numbers! { TemplateFault:
    EXPRESSION_NOT_CLOSED = 700;
    INVALID_CHARACTER = 701;
    INVALID_EXPRESSION = 702;
    INVALID_PERCENT_ENCODING = 703;
    /// A prefix length on a list, or on pairs, that isn't empty.
    UNEXPECTED_VALUE_TYPE = 705;
    UNSUPPORTED_OPERATOR = 706;
}

impl Fault {
    pub(crate) fn of(number: usize) -> Self {
        Fault(number)
    }

    /// The place in bytes of the part of a text that has this fault; `None` where it has no such part. The kind is that of text
    /// which was wanted.
    ///
    /// ```
    /// use irikit::{Grammar, Kind};
    ///
    /// let text = "http://me@h h:8/";
    /// let fault = Grammar::Uri.validate(Kind::Reference, text).unwrap_err();
    /// assert_eq!(fault.part_of(text, Kind::Reference), Some(10..13));
    /// ```
    pub fn part_of(self, text: &str, kind: Kind) -> Option<Range<usize>> {
        let ((bytes, len), mut part, mut detail) = (at(text), ffi::Slot::default(), 0);
        let status = unsafe {
            ffi::irikit_fault_part(kind as u32, self.0, bytes, len, &mut part, &mut detail)
        };
        if status != ffi::IRIKIT_OK {
            return None;
        }
        let end = part.offset.checked_add(part.len)?;
        text.get(part.offset..end)?;
        Some(part.offset..end)
    }
}

impl Error {
    /// The refusal that a status and its detail stand for.
    pub(crate) fn of(status: u8, detail: usize) -> Self {
        match status {
            ffi::IRIKIT_SHORT => Error::Short(detail),
            ffi::IRIKIT_BAD_TEXT => Error::Text(Fault(detail)),
            ffi::IRIKIT_BAD_BASE => Error::Base(Fault(detail)),
            ffi::IRIKIT_BAD_REFERENCE => Error::Reference(Fault(detail)),
            ffi::IRIKIT_BAD_PART => Error::Part(Fault(detail)),
            ffi::IRIKIT_NO_HOST => Error::NoHost,
            _ => unreachable!("irikit.h has no status {status} for this call"),
        }
    }

    /// The refusal that a status, its detail and a place in a template stand for.
    pub(crate) fn of_template(status: u8, detail: usize, place: usize) -> Self {
        match status {
            ffi::IRIKIT_BAD_TEXT => Error::Template(TemplateFault(detail), place),
            _ => Error::of(status, detail),
        }
    }
}

impl fmt::Display for Fault {
    fn fmt(&self, f: &mut fmt::Formatter<'_>) -> fmt::Result {
        f.write_str(words(&mut [0; 64], |out, size, detail| unsafe {
            ffi::irikit_fault_words(self.0, out, size, detail)
        }))
    }
}

impl fmt::Display for TemplateFault {
    fn fmt(&self, f: &mut fmt::Formatter<'_>) -> fmt::Result {
        f.write_str(words(&mut [0; 64], |out, size, detail| unsafe {
            ffi::irikit_template_fault_words(self.0, out, size, detail)
        }))
    }
}

impl fmt::Debug for Fault {
    fn fmt(&self, f: &mut fmt::Formatter<'_>) -> fmt::Result {
        fmt::Display::fmt(self, f)
    }
}

impl fmt::Debug for TemplateFault {
    fn fmt(&self, f: &mut fmt::Formatter<'_>) -> fmt::Result {
        fmt::Display::fmt(self, f)
    }
}

impl fmt::Display for Error {
    fn fmt(&self, f: &mut fmt::Formatter<'_>) -> fmt::Result {
        match self {
            Error::Text(fault) => write!(f, "the text: {fault}"),
            Error::Base(fault) => write!(f, "the base: {fault}"),
            Error::Reference(fault) => write!(f, "the reference: {fault}"),
            Error::Part(fault) => write!(f, "the part: {fault}"),
            Error::Template(fault, place) => write!(f, "the template: {fault} at {place}"),
            Error::NoHost => f.write_str("no host to replace"),
            Error::Short(needed) => write!(f, "the buffer is too short: {needed} bytes are needed"),
        }
    }
}

impl std::error::Error for Fault {}
impl std::error::Error for TemplateFault {}
impl std::error::Error for Error {}
