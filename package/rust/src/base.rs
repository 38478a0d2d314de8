//! References against a base.
use crate::grammar::at;
use crate::written::{answer_lines, into, owned};
use crate::{ffi, Error, Grammar, Mode};
use std::os::raw::c_char;
use std::str;

/// A base, against which references are resolved: an absolute-URI (RFC 3986 section 4.3). [`Grammar::base`] makes it of a text,
/// [`Uri::base`](crate::Uri::base) of a URI.
#[derive(Debug, Clone, PartialEq, Eq, Hash)]
pub struct Base {
    pub(crate) text: String,
    pub(crate) grammar: Grammar,
    pub(crate) mode: Mode,
}

impl Base {
    /// This base, whose canonical texts follow the rules of http, https, ws, wss and ftp too (RFC 3986 section 6.2.3).
    ///
    /// ```
    /// let base = irikit::Grammar::Uri.base("http://a/")?.by_scheme();
    /// assert_eq!(base.canonical("//b:80")?, "http://b/");
    /// # Ok::<(), irikit::Error>(())
    /// ```
    #[must_use]
    pub fn by_scheme(self) -> Self {
        Base {
            mode: Mode::ByScheme,
            ..self
        }
    }

    /// The text of the base.
    pub fn as_str(&self) -> &str {
        &self.text
    }

    /// The canonical text of a reference: resolved (RFC 3986 section 5.2), in normal form (section 6.2.2).
    ///
    /// # Errors
    ///
    /// [`Error::Reference`] where it is no reference.
    ///
    /// ```
    /// use irikit::{Error, Fault, Grammar};
    ///
    /// let base = Grammar::Uri.base("http://a/b/c")?;
    /// assert_eq!(base.canonical("../%7Ed")?, "http://a/~d");
    /// assert_eq!(base.canonical("%4"), Err(Error::Reference(Fault::INVALID_PATH)));
    /// # Ok::<(), irikit::Error>(())
    /// ```
    pub fn canonical(&self, reference: &str) -> Result<String, Error> {
        owned(self.room(reference), canonicalizing(self, reference))
    }

    /// [`canonical`](Self::canonical) into a buffer, of which three bytes more than base and reference have suffice.
    ///
    /// # Errors
    ///
    /// [`Error::Reference`] where it is no reference, [`Error::Short`] where the buffer is too short.
    ///
    /// ```
    /// use irikit::{Error, Grammar};
    ///
    /// let base = Grammar::Uri.base("http://a/b/c")?;
    /// assert_eq!(base.canonical_into("d", &mut [0; 64])?, "http://a/b/d");
    /// assert_eq!(base.canonical_into("d", &mut [0; 8]), Err(Error::Short(12)));
    /// # Ok::<(), irikit::Error>(())
    /// ```
    pub fn canonical_into<'b>(&self, reference: &str, out: &'b mut [u8]) -> Result<&'b str, Error> {
        into(out, canonicalizing(self, reference))
    }

    /// The canonical text of a reference of IRIs, mapped to a URI (RFC 3987 section 3.1). A host past ASCII becomes percent-encoded
    /// octets too, and not Punycode.
    ///
    /// # Errors
    ///
    /// [`Error::Reference`] where it is no reference of IRIs.
    ///
    /// ```
    /// let base = irikit::Grammar::Iri.base("http://a/b/")?;
    /// assert_eq!(base.canonical_to_uri("../résumé")?, "http://a/r%C3%A9sum%C3%A9");
    /// # Ok::<(), irikit::Error>(())
    /// ```
    pub fn canonical_to_uri(&self, reference: &str) -> Result<String, Error> {
        let ((base, base_len), (text, len)) = (at(&self.text), at(reference));
        owned(3 * self.room(reference), |out, size, detail| unsafe {
            ffi::irikit_canonical_to_uri(
                self.mode as u32,
                base,
                base_len,
                text,
                len,
                out,
                size,
                detail,
            )
        })
    }

    /// A reference resolved, and not in normal form.
    ///
    /// # Errors
    ///
    /// [`Error::Reference`] where it is no reference.
    ///
    /// ```
    /// assert_eq!(irikit::Grammar::Uri.base("http://A/b/c")?.resolve("../%7e")?, "http://A/%7e");
    /// # Ok::<(), irikit::Error>(())
    /// ```
    pub fn resolve(&self, reference: &str) -> Result<String, Error> {
        owned(self.room(reference), resolving(self, reference))
    }

    /// [`resolve`](Self::resolve) into a buffer, of which three bytes more than base and reference have suffice.
    ///
    /// # Errors
    ///
    /// [`Error::Reference`] where it is no reference, [`Error::Short`] where the buffer is too short.
    pub fn resolve_into<'b>(&self, reference: &str, out: &'b mut [u8]) -> Result<&'b str, Error> {
        into(out, resolving(self, reference))
    }

    /// The target of a reference: resolved, with its dot segments (RFC 3986 section 5.2.2).
    ///
    /// # Errors
    ///
    /// [`Error::Reference`] where it is no reference.
    ///
    /// ```
    /// assert_eq!(irikit::Grammar::Uri.base("http://A/b/c")?.target("../%7e")?, "http://A/b/../%7e");
    /// # Ok::<(), irikit::Error>(())
    /// ```
    pub fn target(&self, reference: &str) -> Result<String, Error> {
        let ((base, base_len), (text, len)) = (at(&self.text), at(reference));
        owned(self.room(reference), |out, size, detail| unsafe {
            ffi::irikit_target(
                self.grammar as u32,
                base,
                base_len,
                text,
                len,
                out,
                size,
                detail,
            )
        })
    }

    /// The canonical texts of references, one after the other.
    ///
    /// ```
    /// let base = irikit::Grammar::Uri.base("http://a/b/c")?;
    /// let good: Vec<String> = base.canonical_each(["d", "%4", "/e"]).filter_map(Result::ok).collect();
    /// assert_eq!(good, ["http://a/b/d", "http://a/e"]);
    /// # Ok::<(), irikit::Error>(())
    /// ```
    pub fn canonical_each<I>(&self, references: I) -> CanonicalEach<'_, I::IntoIter>
    where
        I: IntoIterator,
        I::Item: AsRef<str>,
    {
        CanonicalEach {
            base: self,
            references: references.into_iter(),
        }
    }

    /// The canonical texts of references, each on a line that an LF ends, with or without a CR before it; what follows the last LF is
    /// a line where it isn't empty. They are asked for in as few calls as the buffer lets, and stand in the buffer, which grows where
    /// an answer has no room.
    ///
    /// ```
    /// let base = irikit::Grammar::Uri.base("http://a/b/c")?;
    /// let mut buffer = Vec::new();
    /// let texts: Vec<_> = base.canonical_lines("d\n%4\n/e", &mut buffer).collect();
    /// assert_eq!(texts, [Ok("http://a/b/d"), Err("invalid path"), Ok("http://a/e")]);
    /// # Ok::<(), irikit::Error>(())
    /// ```
    pub fn canonical_lines<'b>(&self, lines: &str, buffer: &'b mut Vec<u8>) -> Lines<'b> {
        let len = answer_lines(lines, buffer, |lines, out| self.answer(lines, out));
        Lines {
            answers: str::from_utf8(&buffer[..len])
                .expect("irikit writes UTF-8")
                .split_terminator('\n'),
        }
    }

    /// The status of answering lines, how many bytes of them are answered, and how many bytes the answers have.
    fn answer(&self, lines: &str, out: &mut [u8]) -> (u8, usize, usize) {
        let ((base, base_len), (lines, len)) = (at(&self.text), at(lines));
        let (mut consumed, mut detail, size, out) = (0, 0, out.len(), out.as_mut_ptr().cast());
        let (grammar, mode) = (self.grammar as u32, self.mode as u32);
        let status = unsafe {
            ffi::irikit_canonical_lines(
                grammar,
                mode,
                base,
                base_len,
                lines,
                len,
                out,
                size,
                &mut consumed,
                &mut detail,
            )
        };
        (status, consumed, detail)
    }

    fn room(&self, reference: &str) -> usize {
        self.text.len() + reference.len() + 3
    }
}

fn canonicalizing<'t>(
    by: &'t Base,
    reference: &'t str,
) -> impl FnOnce(*mut c_char, usize, *mut usize) -> u8 + 't {
    move |out, size, detail| {
        let ((base, base_len), (reference, len)) = (at(&by.text), at(reference));
        let (grammar, mode) = (by.grammar as u32, by.mode as u32);
        unsafe {
            ffi::irikit_canonical(
                grammar, mode, base, base_len, reference, len, out, size, detail,
            )
        }
    }
}

fn resolving<'t>(
    by: &'t Base,
    reference: &'t str,
) -> impl FnOnce(*mut c_char, usize, *mut usize) -> u8 + 't {
    move |out, size, detail| {
        let ((base, base_len), (reference, len)) = (at(&by.text), at(reference));
        unsafe {
            ffi::irikit_resolve(
                by.grammar as u32,
                base,
                base_len,
                reference,
                len,
                out,
                size,
                detail,
            )
        }
    }
}

/// The iterator of [`Base::canonical_each`].
#[derive(Debug, Clone)]
pub struct CanonicalEach<'a, I> {
    base: &'a Base,
    references: I,
}

impl<I> Iterator for CanonicalEach<'_, I>
where
    I: Iterator,
    I::Item: AsRef<str>,
{
    type Item = Result<String, Error>;

    fn next(&mut self) -> Option<Self::Item> {
        self.references
            .next()
            .map(|reference| self.base.canonical(reference.as_ref()))
    }

    fn size_hint(&self) -> (usize, Option<usize>) {
        self.references.size_hint()
    }
}

/// The iterator of [`Base::canonical_lines`]: for each line its canonical text, or the words for its first fault.
#[derive(Debug, Clone)]
pub struct Lines<'b> {
    answers: str::SplitTerminator<'b, char>,
}

impl<'b> Iterator for Lines<'b> {
    type Item = Result<&'b str, &'b str>;

    fn next(&mut self) -> Option<Self::Item> {
        let answer = self.answers.next()?;
        Some(
            answer
                .strip_prefix("ok ")
                .ok_or_else(|| answer.strip_prefix("bad ").unwrap_or(answer)),
        )
    }
}
