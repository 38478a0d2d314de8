//! The parts of a reference.
use crate::ffi::{Slot, Slots, IRIKIT_NOWHERE};

/// The parts of a reference (RFC 3986 sections 3 and 3.2), without the delimiters around them; None for one that isn't there.
#[derive(Debug, Clone, Copy, PartialEq, Eq, Hash)]
#[non_exhaustive]
#[allow(missing_docs)]
pub struct Parts<'a> {
    pub scheme: Option<&'a str>,
    pub authority: Option<&'a str>,
    pub path: &'a str,
    pub query: Option<&'a str>,
    pub fragment: Option<&'a str>,
    pub userinfo: Option<&'a str>,
    pub host: Option<&'a str>,
    pub port: Option<&'a str>,
}

impl<'a> Parts<'a> {
    pub(crate) fn of(text: &'a str, slots: &Slots) -> Self {
        let part = |slot: Slot| {
            text.get(slot.offset..)
                .filter(|_| slot.offset != IRIKIT_NOWHERE)
                .map(|rest| &rest[..slot.len])
        };
        Parts {
            scheme: part(slots.scheme),
            authority: part(slots.authority),
            path: part(slots.path).unwrap_or_default(),
            query: part(slots.query),
            fragment: part(slots.fragment),
            userinfo: part(slots.userinfo),
            host: part(slots.host),
            port: part(slots.port),
        }
    }

    /// The segments of the path (RFC 3986 section 3.3): what stands between its slashes.
    ///
    /// ```
    /// let parts = irikit::Grammar::Uri.split("http://a/b//c")?;
    /// assert!(parts.segments().eq(["b", "", "c"]));
    /// # Ok::<(), irikit::Error>(())
    /// ```
    pub fn segments(&self) -> impl Iterator<Item = &'a str> {
        let path = self.path.strip_prefix('/').unwrap_or(self.path);
        path.split('/').skip(usize::from(self.path.is_empty()))
    }
}
