//! What types of texts have in common.

/// Has a type that has a text, by its `as_str`, be a `str` wherever one is wanted, and become a `String`.
macro_rules! is_a_str {
    ($text:ident) => {
        impl std::ops::Deref for $text {
            type Target = str;

            fn deref(&self) -> &str {
                self.as_str()
            }
        }

        impl AsRef<str> for $text {
            fn as_ref(&self) -> &str {
                self.as_str()
            }
        }

        impl From<$text> for String {
            fn from(text: $text) -> String {
                text.as_str().to_owned()
            }
        }
    };
}

pub(crate) use is_a_str;
