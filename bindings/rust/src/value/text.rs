//! Short texts that take no memory of their own.
use std::str;
use std::sync::Arc;

// So many bytes lie in the text itself: it is as large as a `String` then.
const ROOM: usize = 22;

/// A text that doesn't change. At most 22 bytes lie in it, and a longer text is shared by its clones.
#[derive(Clone)]
pub(crate) struct ShortText(Text);

// The first `length` bytes of `bytes` are UTF-8.
#[derive(Clone)]
enum Text {
    Short { length: u8, bytes: [u8; ROOM] },
    Long(Arc<str>),
}

impl ShortText {
    pub(crate) fn new(text: &str) -> ShortText {
        if text.len() > ROOM {
            return ShortText(Text::Long(text.into()));
        }
        let mut bytes = [0; ROOM];
        bytes[..text.len()].copy_from_slice(text.as_bytes());
        ShortText(Text::Short {
            length: text.len() as u8,
            bytes,
        })
    }

    /// The text that the first bytes are, of which there are so many; none if they aren't UTF-8. They are copied by one
    /// move of fixed length wherever so many follow.
    #[inline(always)]
    pub(crate) fn at_front(bytes: &[u8], length: usize) -> Option<ShortText> {
        let text = str::from_utf8(bytes.get(..length)?).ok()?;
        match bytes.first_chunk::<ROOM>() {
            // What lies behind `length` is never looked at.
            Some(bytes) if length <= ROOM => Some(ShortText(Text::Short {
                length: length as u8,
                bytes: *bytes,
            })),
            _ => Some(ShortText::new(text)),
        }
    }

    #[inline]
    pub(crate) fn as_str(&self) -> &str {
        match &self.0 {
            Text::Short { length, bytes } => {
                let bytes = &bytes[..usize::from(*length)];
                // SAFETY: these bytes were copied from a `str`, whole characters each.
                unsafe { str::from_utf8_unchecked(bytes) }
            }
            Text::Long(text) => text,
        }
    }
}
