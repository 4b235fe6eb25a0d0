//! Stand-in of `oxc_str`: a short string that is held in place. A graph's names are numbers, so all are short.

use std::borrow::Borrow;
use std::fmt;
use std::hash::{Hash, Hasher};

const ROOM: usize = 15;

#[derive(Clone, Default)]
pub struct CompactStr {
    length: u8,
    bytes: [u8; ROOM],
}

impl CompactStr {
    /// The text has to be short.
    pub fn new(text: &str) -> CompactStr {
        let mut bytes = [0; ROOM];
        bytes[..text.len()].copy_from_slice(text.as_bytes());
        CompactStr { length: text.len() as u8, bytes }
    }

    #[inline]
    pub fn as_str(&self) -> &str {
        // SAFETY: the bytes up to the length are those of a `str`.
        unsafe { std::str::from_utf8_unchecked(&self.bytes[..self.length as usize]) }
    }
}

impl Borrow<str> for CompactStr {
    #[inline]
    fn borrow(&self) -> &str {
        self.as_str()
    }
}

impl PartialEq for CompactStr {
    #[inline]
    fn eq(&self, other: &CompactStr) -> bool {
        self.as_str() == other.as_str()
    }
}

impl Eq for CompactStr {}

impl Hash for CompactStr {
    #[inline]
    fn hash<H: Hasher>(&self, hasher: &mut H) {
        self.as_str().hash(hasher);
    }
}

impl fmt::Debug for CompactStr {
    fn fmt(&self, f: &mut fmt::Formatter) -> fmt::Result {
        self.as_str().fmt(f)
    }
}
