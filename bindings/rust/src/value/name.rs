//! Names.
use super::ShortText;
use crate::as_str::is_a_str;
use std::borrow::Borrow;
use std::cmp::Ordering;
use std::fmt;
use std::hash::{Hash, Hasher};
use std::sync::Arc;

/// A name of a document: of a field, a type, an argument, a variable and the like.
///
/// It is a `str` wherever one is wanted. Names are equal if their texts are, ordered by the bytes of their texts, and
/// hashed as texts, so that a map over names is looked up by a `str`. A name of at most 22 bytes takes no memory but its
/// own, and the clones of a longer one share its text.
#[derive(Clone)]
pub struct Name(ShortText);

impl Name {
    /// The name with this text, whatever the text is: it isn't held against the grammar of names.
    #[must_use]
    pub fn new(name: impl AsRef<str>) -> Name {
        Name(ShortText::new(name.as_ref()))
    }

    // The name that the first bytes are, of which there are so many.
    #[inline(always)]
    pub(crate) fn at_front(bytes: &[u8], length: usize) -> Option<Name> {
        ShortText::at_front(bytes, length).map(Name)
    }

    /// The name's text, borrowed.
    #[inline]
    #[must_use]
    pub fn as_str(&self) -> &str {
        self.0.as_str()
    }
}

is_a_str!(Name);

impl Borrow<str> for Name {
    fn borrow(&self) -> &str {
        self.as_str()
    }
}

impl From<Name> for Arc<str> {
    fn from(name: Name) -> Arc<str> {
        name.as_str().into()
    }
}

impl Hash for Name {
    fn hash<H: Hasher>(&self, state: &mut H) {
        self.as_str().hash(state);
    }
}

impl PartialEq for Name {
    fn eq(&self, other: &Name) -> bool {
        self.as_str() == other.as_str()
    }
}

impl Eq for Name {}

impl PartialOrd for Name {
    fn partial_cmp(&self, other: &Name) -> Option<Ordering> {
        Some(self.cmp(other))
    }
}

impl Ord for Name {
    fn cmp(&self, other: &Name) -> Ordering {
        self.as_str().cmp(other.as_str())
    }
}

impl PartialEq<str> for Name {
    fn eq(&self, other: &str) -> bool {
        self.as_str() == other
    }
}

impl PartialEq<&str> for Name {
    fn eq(&self, other: &&str) -> bool {
        self.as_str() == *other
    }
}

impl PartialEq<String> for Name {
    fn eq(&self, other: &String) -> bool {
        self.as_str() == other
    }
}

impl PartialEq<Name> for str {
    fn eq(&self, other: &Name) -> bool {
        self == other.as_str()
    }
}

impl PartialEq<Name> for &str {
    fn eq(&self, other: &Name) -> bool {
        *self == other.as_str()
    }
}

impl PartialEq<Name> for String {
    fn eq(&self, other: &Name) -> bool {
        self == other.as_str()
    }
}

impl fmt::Debug for Name {
    fn fmt(&self, f: &mut fmt::Formatter<'_>) -> fmt::Result {
        f.debug_tuple("Name").field(&self.as_str()).finish()
    }
}

impl fmt::Display for Name {
    fn fmt(&self, f: &mut fmt::Formatter<'_>) -> fmt::Result {
        f.pad(self.as_str())
    }
}
