//! The grammars, and what is asked in one without a base.
use crate::template::{refuse, Array};
use crate::written::{answer_lines, bytes, into, owned};
use crate::{ffi, Base, Error, Fault, Parts, Value};
use std::os::raw::c_char;

/// A grammar, and by it the calls that need no base.
#[derive(Debug, Clone, Copy, PartialEq, Eq, Hash)]
pub enum Grammar {
    /// RFC 3986: ASCII alone.
    Uri = 100,
    /// RFC 3987: characters past ASCII too.
    Iri = 101,
}

/// A mode of normal form.
#[derive(Debug, Clone, Copy, PartialEq, Eq, Hash)]
pub enum Mode {
    /// RFC 3986 section 6.2.2, and an empty port removed (section 6.2.3).
    Normal = 200,
    /// `Normal`, without the default port of http, https, ws, wss and ftp, and with `/` for an empty path beside an authority
    /// (section 6.2.3).
    ByScheme = 201,
    /// `Normal`, but a path without authority that doesn't begin with a slash keeps its dot segments.
    Preserving = 202,
}

/// A kind of whole text.
#[derive(Debug, Clone, Copy, PartialEq, Eq, Hash)]
pub enum Kind {
    /// URI-reference (RFC 3986 section 4.1).
    Reference = 300,
    /// URI (section 3).
    WithScheme = 301,
    /// absolute-URI: with a scheme and without a fragment (section 4.3).
    Absolute = 302,
    /// relative-ref: without a scheme (section 4.2).
    Relative = 303,
}

/// A place of a reference, by what stands as it is there beside `unreserved` and, in IRIs, characters past ASCII.
#[derive(Debug, Clone, Copy, PartialEq, Eq, Hash)]
pub enum Place {
    /// sub-delims (RFC 3986 section 3.2.2).
    RegName = 400,
    /// sub-delims: the user or the password (section 3.2.1).
    User = 401,
    /// sub-delims `:` `@` (section 3.3).
    Segment = 402,
    /// sub-delims `:` `@` `/` (section 3.3).
    Path = 403,
    /// sub-delims `:` `@` `/` `?` (section 3.4).
    Query = 404,
    /// sub-delims `:` `@` `/` `?` (section 3.5).
    Fragment = 405,
    /// Nothing (section 2.3).
    Anywhere = 406,
    /// sub-delims and gen-delims (section 2.2).
    Reference = 407,
}

/// A part that a text is built from, without the delimiters around it.
#[derive(Debug, Clone, Copy, PartialEq, Eq, Hash)]
#[allow(missing_docs)]
pub enum Part {
    Scheme = 800,
    Userinfo = 801,
    Host = 802,
    Port = 803,
    Path = 804,
    Query = 805,
    Fragment = 806,
}

/// A text as its pointer and its length.
pub(crate) fn at(text: &str) -> (*const c_char, usize) {
    (text.as_ptr().cast(), text.len())
}

impl Grammar {
    /// A base, against which references are resolved.
    ///
    /// # Errors
    ///
    /// [`Error::Base`] where it is no absolute-URI (RFC 3986 section 4.3: a scheme, and no fragment).
    ///
    /// ```
    /// let base = irikit::Grammar::Uri.base("http://a/b/c/d;p?q")?;
    /// assert_eq!(base.canonical("../g")?, "http://a/b/g");
    /// # Ok::<(), irikit::Error>(())
    /// ```
    pub fn base(self, text: &str) -> Result<Base, Error> {
        self.validate(Kind::Absolute, text).map_err(Error::Base)?;
        Ok(Base {
            text: text.into(),
            grammar: self,
            mode: Mode::Normal,
        })
    }

    /// Whether a text is of a kind.
    ///
    /// # Errors
    ///
    /// Its first fault where it isn't.
    ///
    /// ```
    /// use irikit::Grammar::{Iri, Uri};
    /// use irikit::{Fault, Kind};
    ///
    /// assert_eq!(Uri.validate(Kind::Reference, "/caf%C3%A9"), Ok(()));
    /// assert_eq!(Uri.validate(Kind::Reference, "/café"), Err(Fault::INVALID_PATH));
    /// assert_eq!(Iri.validate(Kind::Reference, "/café"), Ok(()));
    /// ```
    pub fn validate(self, kind: Kind, text: &str) -> Result<(), Fault> {
        let ((text, len), mut detail) = (at(text), 0);
        match unsafe { ffi::irikit_validate(self as u32, kind as u32, text, len, &mut detail) } {
            ffi::IRIKIT_OK => Ok(()),
            ffi::IRIKIT_BAD_TEXT => Err(Fault::of(detail)),
            status => unreachable!("irikit.h has no status {status} for this call"),
        }
    }

    /// The parts of a reference.
    ///
    /// # Errors
    ///
    /// [`Error::Text`] where it is none.
    ///
    /// ```
    /// let parts = irikit::Grammar::Uri.split("//h:8/p?q")?;
    /// assert_eq!((parts.host, parts.port, parts.path, parts.query), (Some("h"), Some("8"), "/p", Some("q")));
    /// # Ok::<(), irikit::Error>(())
    /// ```
    pub fn split(self, text: &str) -> Result<Parts<'_>, Error> {
        let ((bytes, len), mut slots, mut detail) = (at(text), ffi::Slots::default(), 0);
        match unsafe { ffi::irikit_split(self as u32, bytes, len, &mut slots, &mut detail) } {
            ffi::IRIKIT_OK => Ok(Parts::of(text, &slots)),
            status => Err(Error::of(status, detail)),
        }
    }

    /// Whether a text with a scheme is its own normal form.
    ///
    /// # Errors
    ///
    /// [`Error::Text`] where it is no URI.
    ///
    /// ```
    /// assert!(!irikit::Grammar::Uri.is_normalized("HTTP://a/", irikit::Mode::Normal)?);
    /// # Ok::<(), irikit::Error>(())
    /// ```
    pub fn is_normalized(self, text: &str, mode: Mode) -> Result<bool, Error> {
        let ((text, len), mut detail) = (at(text), 0);
        match unsafe { ffi::irikit_is_normalized(self as u32, mode as u32, text, len, &mut detail) }
        {
            ffi::IRIKIT_OK => Ok(true),
            ffi::IRIKIT_NOT_NORMAL => Ok(false),
            status => Err(Error::of(status, detail)),
        }
    }

    /// The normal form of a text with a scheme (RFC 3986 section 6.2.2).
    ///
    /// # Errors
    ///
    /// [`Error::Text`] where it is no URI.
    ///
    /// ```
    /// assert_eq!(irikit::Grammar::Uri.normalize("HTTP://a:80/%7e", irikit::Mode::ByScheme)?, "http://a/~");
    /// # Ok::<(), irikit::Error>(())
    /// ```
    pub fn normalize(self, text: &str, mode: Mode) -> Result<String, Error> {
        owned(text.len() + 3, self.normalizing(text, mode))
    }

    /// [`normalize`](Self::normalize) into a buffer, of which `text.len() + 3` bytes suffice.
    ///
    /// # Errors
    ///
    /// [`Error::Text`] where it is no URI, [`Error::Short`] where the buffer is too short.
    pub fn normalize_into<'b>(
        self,
        text: &str,
        mode: Mode,
        out: &'b mut [u8],
    ) -> Result<&'b str, Error> {
        into(out, self.normalizing(text, mode))
    }

    fn normalizing(
        self,
        text: &str,
        mode: Mode,
    ) -> impl FnOnce(*mut c_char, usize, *mut usize) -> u8 + '_ {
        move |out, size, detail| {
            let (text, len) = at(text);
            unsafe { ffi::irikit_normalize(self as u32, mode as u32, text, len, out, size, detail) }
        }
    }

    /// The answers to lines, each a page, a tab and a link on it: `ok TEXT` by the link's canonical text, `bad WORDS` for its first
    /// fault, `base WORDS` for the page's, `bad line` where there is no tab. Each is that of its own line alone, so lists of pairs may be
    /// cut at any LF.
    ///
    /// ```
    /// let answers = irikit::Grammar::Uri.pairs("http://a/b\tc\nhttp://h/\t%4\nhttp://h/");
    /// assert_eq!(answers, "ok http://a/c\nbad invalid path\nbad line\n");
    /// ```
    pub fn pairs(self, lines: &str) -> String {
        self.pairs_in(lines, Mode::Normal)
    }

    /// [`pairs`](Self::pairs) by the rules of http, https, ws, wss and ftp too (RFC 3986 section 6.2.3).
    ///
    /// ```
    /// assert_eq!(irikit::Grammar::Uri.pairs_by_scheme("http://a/b\t//h:80"), "ok http://h/\n");
    /// ```
    pub fn pairs_by_scheme(self, lines: &str) -> String {
        self.pairs_in(lines, Mode::ByScheme)
    }

    fn pairs_in(self, lines: &str, mode: Mode) -> String {
        let mut buffer = Vec::new();
        let len = answer_lines(lines, &mut buffer, |lines, out| {
            let ((lines, len), (mut consumed, mut detail)) = (at(lines), (0, 0));
            let (size, out) = (out.len(), out.as_mut_ptr().cast());
            let (grammar, mode) = (self as u32, mode as u32);
            let status = unsafe {
                ffi::irikit_canonical_pairs(
                    grammar,
                    mode,
                    lines,
                    len,
                    out,
                    size,
                    &mut consumed,
                    &mut detail,
                )
            };
            (status, consumed, detail)
        });
        buffer.truncate(len);
        String::from_utf8(buffer).expect("irikit writes UTF-8")
    }

    /// The steps that lead a text with a scheme to its normal form (RFC 3986 section 6.2.2), in words and from left to right. A
    /// place counts the bytes of its part, as the steps before leave it.
    ///
    /// # Errors
    ///
    /// [`Error::Text`] where it is no URI.
    ///
    /// ```
    /// assert_eq!(irikit::Grammar::Uri.steps("Http://a/%7eb/../c")?, ["scheme letter 0", "decode path 1", "dot segments"]);
    /// # Ok::<(), irikit::Error>(())
    /// ```
    pub fn steps(self, text: &str) -> Result<Vec<String>, Error> {
        self.steps_in(text, Mode::Normal)
    }

    /// The steps that lead a URI to its normal form by scheme rules (section 6.2.3).
    ///
    /// # Errors
    ///
    /// [`Error::Text`] where it is no URI.
    ///
    /// ```
    /// assert_eq!(irikit::Grammar::Uri.steps_by_scheme("http://a:80")?, ["default port", "empty path"]);
    /// # Ok::<(), irikit::Error>(())
    /// ```
    pub fn steps_by_scheme(self, text: &str) -> Result<Vec<String>, Error> {
        self.steps_in(text, Mode::ByScheme)
    }

    fn steps_in(self, text: &str, mode: Mode) -> Result<Vec<String>, Error> {
        let (text, len) = at(text);
        let call = move |out: *mut c_char, size: usize, detail: *mut usize| unsafe {
            ffi::irikit_steps(self as u32, mode as u32, text, len, out, size, detail)
        };
        let lines = match owned(0, call) {
            Err(Error::Short(needed)) => owned(needed, call),
            lines => lines,
        }?;
        Ok(lines.split_terminator('\n').map(Into::into).collect())
    }

    /// A raw text, percent-encoded for its place in a reference (RFC 3986 sections 2.1 and 2.4).
    ///
    /// ```
    /// use irikit::{Grammar, Place};
    ///
    /// assert_eq!(Grammar::Uri.encode("50% off/a", Place::Segment), "50%25%20off%2Fa");
    /// ```
    pub fn encode(self, text: &str, place: Place) -> String {
        owned(3 * text.len(), self.encoding(text, place))
            .expect("a text is UTF-8, and has three bytes for each of its own")
    }

    /// [`encode`](Self::encode) into a buffer, of which `3 * text.len()` bytes suffice.
    ///
    /// # Errors
    ///
    /// [`Error::Short`] where the buffer is too short.
    pub fn encode_into<'b>(
        self,
        text: &str,
        place: Place,
        out: &'b mut [u8],
    ) -> Result<&'b str, Error> {
        into(out, self.encoding(text, place))
    }

    fn encoding(
        self,
        text: &str,
        place: Place,
    ) -> impl FnOnce(*mut c_char, usize, *mut usize) -> u8 + '_ {
        move |out, size, detail| {
            let (text, len) = at(text);
            unsafe { ffi::irikit_encode(self as u32, place as u32, text, len, out, size, detail) }
        }
    }

    /// A reference without its password: what follows the first `:` of its userinfo.
    ///
    /// # Errors
    ///
    /// [`Error::Text`] where it is no reference.
    ///
    /// ```
    /// assert_eq!(irikit::Grammar::Uri.mask_password("http://u:pw@h/")?, "http://u:@h/");
    /// # Ok::<(), irikit::Error>(())
    /// ```
    pub fn mask_password(self, text: &str) -> Result<String, Error> {
        let (text, len) = at(text);
        owned(len, |out, size, detail| unsafe {
            ffi::irikit_mask_password(self as u32, text, len, out, size, detail)
        })
    }

    /// A reference without its password and the colon before it.
    ///
    /// # Errors
    ///
    /// [`Error::Text`] where it is no reference.
    ///
    /// ```
    /// assert_eq!(irikit::Grammar::Uri.without_password("http://u:pw@h/")?, "http://u@h/");
    /// # Ok::<(), irikit::Error>(())
    /// ```
    pub fn without_password(self, text: &str) -> Result<String, Error> {
        let (text, len) = at(text);
        owned(len, |out, size, detail| unsafe {
            ffi::irikit_remove_password(self as u32, text, len, out, size, detail)
        })
    }

    /// A reference with another host (RFC 3986 section 3.2.2); of an IP literal with its brackets.
    ///
    /// # Errors
    ///
    /// [`Error::Text`] where it is no reference, [`Error::Part`] where the new host is none, [`Error::NoHost`] where it has no
    /// authority.
    ///
    /// ```
    /// assert_eq!(irikit::Grammar::Uri.with_host("http://a:80/", "[::1]")?, "http://[::1]:80/");
    /// # Ok::<(), irikit::Error>(())
    /// ```
    pub fn with_host(self, text: &str, host: &str) -> Result<String, Error> {
        let ((text, len), (host, host_len)) = (at(text), at(host));
        owned(len + host_len, |out, size, detail| unsafe {
            ffi::irikit_replace_host(self as u32, text, len, host, host_len, out, size, detail)
        })
    }

    /// A reference with another host in place of a registered name (RFC 3986 section 3.2.2).
    ///
    /// # Errors
    ///
    /// As of [`with_host`](Self::with_host), and [`Error::NoHost`] where the host is an IP literal or an IPv4 address.
    pub fn with_reg_name(self, text: &str, name: &str) -> Result<String, Error> {
        let ((text, len), (host, host_len)) = (at(text), at(name));
        owned(len + host_len, |out, size, detail| unsafe {
            ffi::irikit_replace_reg_name(self as u32, text, len, host, host_len, out, size, detail)
        })
    }

    /// A text of a kind, built from parts (RFC 3986 section 5.3). Of two of one part the later counts.
    ///
    /// # Errors
    ///
    /// [`Error::Part`]: the first fault of the parts, or what the kind refuses of them.
    ///
    /// ```
    /// use irikit::{Grammar, Kind, Part};
    ///
    /// let parts = [(Part::Scheme, "http"), (Part::Host, "a"), (Part::Path, "/b")];
    /// assert_eq!(Grammar::Uri.build(Kind::WithScheme, &parts)?, "http://a/b");
    /// # Ok::<(), irikit::Error>(())
    /// ```
    pub fn build(self, kind: Kind, parts: &[(Part, &str)]) -> Result<String, Error> {
        let given = |(part, text): &(Part, &str)| {
            let (bytes, len) = at(text);
            ffi::Given {
                part: *part as usize,
                text: ffi::Text { bytes, len },
            }
        };
        let given: Vec<ffi::Given> = parts.iter().map(given).collect();
        let room = parts.iter().map(|(_, text)| text.len()).sum::<usize>() + 7;
        owned(room, |out, size, detail| unsafe {
            ffi::irikit_build(
                self as u32,
                kind as u32,
                given.as_ptr(),
                given.len(),
                out,
                size,
                detail,
            )
        })
    }

    /// A reference with another text in place of its password; one without a colon in its userinfo stays as it is. The new text is
    /// written as it stands ([`Place::User`] encodes it so that the whole is a reference again).
    ///
    /// # Errors
    ///
    /// [`Error::Text`] where it is no reference.
    ///
    /// ```
    /// assert_eq!(irikit::Grammar::Uri.replace_password("http://u:pw@h/", "***")?, "http://u:***@h/");
    /// # Ok::<(), irikit::Error>(())
    /// ```
    pub fn replace_password(self, text: &str, password: &str) -> Result<String, Error> {
        let ((text, len), (password, password_len)) = (at(text), at(password));
        owned(len + password_len, |out, size, detail| unsafe {
            ffi::irikit_replace_password(
                self as u32,
                text,
                len,
                password,
                password_len,
                out,
                size,
                detail,
            )
        })
    }

    /// A reference with another fragment, or with none (RFC 3986 section 3.5).
    ///
    /// # Errors
    ///
    /// [`Error::Text`] where it is no reference, [`Error::Part`] where the fragment is none.
    ///
    /// ```
    /// assert_eq!(irikit::Grammar::Uri.with_fragment("a?b#c", Some("d"))?, "a?b#d");
    /// assert_eq!(irikit::Grammar::Uri.with_fragment("a?b#c", None)?, "a?b");
    /// # Ok::<(), irikit::Error>(())
    /// ```
    pub fn with_fragment(self, text: &str, fragment: Option<&str>) -> Result<String, Error> {
        let (text, len) = at(text);
        match fragment.map(at) {
            None => owned(len, |out, size, detail| unsafe {
                ffi::irikit_remove_fragment(self as u32, text, len, out, size, detail)
            }),
            Some((fragment, fragment_len)) => {
                owned(len + fragment_len + 1, |out, size, detail| unsafe {
                    ffi::irikit_set_fragment(
                        self as u32,
                        text,
                        len,
                        fragment,
                        fragment_len,
                        out,
                        size,
                        detail,
                    )
                })
            }
        }
    }

    /// The expansion of a URI template (RFC 6570, level 4). Of two variables with one name the first counts.
    ///
    /// # Errors
    ///
    /// [`Error::Template`] where it has a fault.
    ///
    /// ```
    /// use irikit::{Grammar, Value};
    ///
    /// let variables = [("q", Value::Text("two words")), ("labels", Value::List(&["a", "b"]))];
    /// assert_eq!(Grammar::Uri.expand("/search{?q}{&labels*}", &variables)?, "/search?q=two%20words&labels=a&labels=b");
    /// # Ok::<(), irikit::Error>(())
    /// ```
    pub fn expand(self, template: &str, variables: &[(&str, Value<'_>)]) -> Result<String, Error> {
        let array = Array::of(variables);
        let mut out = Vec::new();
        loop {
            match self.expand_array(template, &array, &mut out) {
                Err(Error::Short(needed)) => out.resize(needed, 0),
                Err(error) => return Err(error),
                Ok(len) => {
                    out.truncate(len);
                    return Ok(String::from_utf8(out).expect("irikit writes UTF-8"));
                }
            }
        }
    }

    /// [`expand`](Self::expand) into a buffer.
    ///
    /// # Errors
    ///
    /// [`Error::Template`] where the template has a fault, [`Error::Short`] where the buffer is too short.
    pub fn expand_into<'b>(
        self,
        template: &str,
        variables: &[(&str, Value<'_>)],
        out: &'b mut [u8],
    ) -> Result<&'b str, Error> {
        let len = self.expand_array(template, &Array::of(variables), out)?;
        Ok(std::str::from_utf8(&out[..len]).expect("irikit writes UTF-8"))
    }

    fn expand_array(
        self,
        template: &str,
        array: &Array<'_>,
        out: &mut [u8],
    ) -> Result<usize, Error> {
        let ((template, template_len), (variables, count)) = (at(template), array.parts());
        let (size, out, mut detail, mut place) = (out.len(), out.as_mut_ptr().cast(), 0, 0);
        let status = unsafe {
            ffi::irikit_expand(
                self as u32,
                template,
                template_len,
                variables,
                count,
                out,
                size,
                &mut detail,
                &mut place,
            )
        };
        refuse(status, detail, place)
    }
}

/// The names of a template's variables, from left to right, each as often as it stands there (RFC 6570 section 2).
///
/// # Errors
///
/// [`Error::Template`] where it has a fault.
///
/// ```
/// assert_eq!(irikit::template_variables("/search{?q,n*}")?, ["q", "n"]);
/// # Ok::<(), irikit::Error>(())
/// ```
pub fn template_variables(template: &str) -> Result<Vec<&str>, Error> {
    let ((bytes, len), mut detail, mut place) = (at(template), 0, 0);
    let mut slots = vec![ffi::Slot::default(); len / 2];
    let (names, count) = (slots.as_mut_ptr(), slots.len());
    let status = unsafe {
        ffi::irikit_template_variables(bytes, len, names, count, &mut detail, &mut place)
    };
    slots.truncate(refuse(status, detail, place)?);
    Ok(slots
        .iter()
        .map(|s| &template[s.offset..s.offset + s.len])
        .collect())
}

/// A reference of IRIs, mapped to one of URIs (RFC 3987 section 3.1).
///
/// # Errors
///
/// [`Error::Text`] where it is no reference.
///
/// ```
/// assert_eq!(irikit::map_to_uri("http://a/é")?, "http://a/%C3%A9");
/// # Ok::<(), irikit::Error>(())
/// ```
pub fn map_to_uri(text: &str) -> Result<String, Error> {
    let (text, len) = at(text);
    owned(3 * len, |out, size, detail| unsafe {
        ffi::irikit_map_to_uri(text, len, out, size, detail)
    })
}

/// The bytes that a text decodes to: each percent-encoded octet gives its byte, and all else stays. They needn't be UTF-8.
///
/// ```
/// assert_eq!(irikit::decode("50%25%20off%2Fa"), b"50% off/a");
/// ```
pub fn decode(text: &str) -> Vec<u8> {
    let ((text, len), mut out) = (at(text), vec![0; text.len()]);
    let decoded = bytes(&mut out, |out, size, detail| unsafe {
        ffi::irikit_decode(text, len, out, size, detail)
    });
    let len = decoded.expect("what is decoded isn't longer").len();
    out.truncate(len);
    out
}
