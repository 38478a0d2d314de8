//! Texts of a production.
use crate::{Base, Error, Grammar, Kind, Mode, Parts};
use std::borrow::Borrow;
use std::fmt;
use std::str::FromStr;

const VALID: &str = "the text is of its kind";

macro_rules! texts {
    ($($(#[$doc:meta])* $name:ident, $grammar:expr, $kind:expr;)*) => { $(
        $(#[$doc])*
        ///
        /// Two are equal where their texts are, and they are ordered and hashed as these.
        #[derive(Debug, Clone, PartialEq, Eq, PartialOrd, Ord, Hash)]
        pub struct $name(String);

        impl $name {
            /// The text.
            #[must_use]
            pub fn as_str(&self) -> &str {
                &self.0
            }

            /// The parts of the text.
            #[must_use]
            pub fn parts(&self) -> Parts<'_> {
                $grammar.split(&self.0).expect(VALID)
            }

            /// This text with another fragment, or with none (RFC 3986 section 3.5).
            ///
            /// # Errors
            ///
            /// [`Error::Part`] where the new fragment isn't one.
            pub fn with_fragment(&self, fragment: Option<&str>) -> Result<Self, Error> {
                $grammar.with_fragment(&self.0, fragment).map(Self)
            }

            /// This text with another host (RFC 3986 section 3.2.2), an IP literal with its brackets.
            ///
            /// # Errors
            ///
            /// [`Error::Part`] where the new host isn't one, [`Error::NoHost`] where there is no authority.
            pub fn with_host(&self, host: &str) -> Result<Self, Error> {
                $grammar.with_host(&self.0, host).map(Self)
            }

            /// This text without its password and the colon before it (RFC 3986 section 3.2.1).
            #[must_use]
            pub fn without_password(&self) -> Self {
                Self($grammar.without_password(&self.0).expect(VALID))
            }
        }

        impl TryFrom<String> for $name {
            type Error = Error;

            fn try_from(text: String) -> Result<Self, Error> {
                match $grammar.validate($kind, &text) {
                    Ok(()) => Ok(Self(text)),
                    Err(fault) => Err(Error::Text(fault)),
                }
            }
        }

        impl FromStr for $name {
            type Err = Error;

            fn from_str(text: &str) -> Result<Self, Error> {
                Self::try_from(String::from(text))
            }
        }

        impl From<$name> for String {
            fn from(text: $name) -> String {
                text.0
            }
        }

        impl fmt::Display for $name {
            fn fmt(&self, f: &mut fmt::Formatter<'_>) -> fmt::Result {
                self.0.fmt(f)
            }
        }

        impl AsRef<str> for $name {
            fn as_ref(&self) -> &str {
                &self.0
            }
        }

        impl Borrow<str> for $name {
            fn borrow(&self) -> &str {
                &self.0
            }
        }
    )* };
}

texts! {
    /// A URI (RFC 3986 section 3): a text with a scheme.
    ///
    /// ```
    /// use irikit::{Error, Fault, Mode, Uri};
    ///
    /// let page: Uri = "HTTP://Example.COM/docs/guide#top".parse()?;
    /// assert_eq!((page.parts().host, page.parts().fragment), (Some("Example.COM"), Some("top")));
    /// assert_eq!(page.normalized(Mode::Normal).as_str(), "http://example.com/docs/guide#top");
    /// assert_eq!(page.join("../%7Ebob")?.to_string(), "HTTP://Example.COM/%7Ebob");
    /// assert_eq!("over/there".parse::<Uri>(), Err(Error::Text(Fault::UNEXPECTED_RELATIVE)));
    /// # Ok::<(), irikit::Error>(())
    /// ```
    Uri, Grammar::Uri, Kind::WithScheme;
    /// A URI-reference (RFC 3986 section 4.1): a URI, or a text without a scheme.
    ///
    /// ```
    /// let link: irikit::UriReference = "//me:secret@h/p?q".parse()?;
    /// assert_eq!(link.without_password().with_host("[::1]")?.as_str(), "//me@[::1]/p?q");
    /// # Ok::<(), irikit::Error>(())
    /// ```
    UriReference, Grammar::Uri, Kind::Reference;
    /// An IRI (RFC 3987 section 2): as a URI, and with characters past ASCII.
    ///
    /// ```
    /// let page: irikit::Iri = "http://a/caf%C3%A9".parse()?;
    /// assert_eq!(page.normalized(irikit::Mode::Normal).as_str(), "http://a/café");
    /// # Ok::<(), irikit::Error>(())
    /// ```
    Iri, Grammar::Iri, Kind::WithScheme;
    /// An IRI-reference (RFC 3987 section 2.2): an IRI, or a text without a scheme.
    ///
    /// ```
    /// let link: irikit::IriReference = "/café".parse()?;
    /// assert_eq!(link.to_uri().as_str(), "/caf%C3%A9");
    /// # Ok::<(), irikit::Error>(())
    /// ```
    IriReference, Grammar::Iri, Kind::Reference;
}

macro_rules! with_scheme {
    ($($name:ident, $reference:ident, $grammar:expr;)*) => { $(
        impl $name {
            /// The base that this is without its fragment (RFC 3986 section 5.1).
            #[must_use]
            pub fn base(&self) -> Base {
                Base {
                    text: $grammar.with_fragment(&self.0, None).expect(VALID),
                    grammar: $grammar,
                    mode: Mode::Normal,
                }
            }

            /// A reference resolved against this (RFC 3986 section 5.2), and not in normal form.
            ///
            /// # Errors
            ///
            /// [`Error::Reference`] where it is no reference.
            pub fn join(&self, reference: &str) -> Result<Self, Error> {
                self.base().resolve(reference).map(Self)
            }

            /// The normal form (RFC 3986 section 6.2.2). Two are one link where their normal forms are equal.
            #[must_use]
            pub fn normalized(&self, mode: Mode) -> Self {
                Self($grammar.normalize(&self.0, mode).expect(VALID))
            }
        }

        impl From<$name> for $reference {
            fn from(text: $name) -> $reference {
                $reference(text.0)
            }
        }

        impl TryFrom<$reference> for $name {
            type Error = Error;

            fn try_from(reference: $reference) -> Result<Self, Error> {
                Self::try_from(reference.0)
            }
        }
    )* };
}

with_scheme! {
    Uri, UriReference, Grammar::Uri;
    Iri, IriReference, Grammar::Iri;
}

macro_rules! mapped {
    ($($iri:ident, $uri:ident;)*) => { $(
        impl $iri {
            /// The URI that this is mapped to (RFC 3987 section 3.1), or the reference.
            #[must_use]
            pub fn to_uri(&self) -> $uri {
                $uri(crate::map_to_uri(&self.0).expect(VALID))
            }
        }

        impl From<$uri> for $iri {
            fn from(text: $uri) -> $iri {
                $iri(text.0)
            }
        }
    )* };
}

mapped! {
    Iri, Uri;
    IriReference, UriReference;
}
