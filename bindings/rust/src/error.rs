//! Why a text is rejected.
use crate::pos::Pos;
use crate::types::OperationType;
use crate::value::Name;
use std::fmt::{self, Display, Formatter};
use std::iter::FusedIterator;

/// Why a text is rejected, or couldn't be read. Its display is its message, without the places of
/// [`positions`](Error::positions).
///
/// A later version of this crate may have other errors.
#[derive(Clone, Debug, PartialEq, Eq)]
#[non_exhaustive]
pub enum Error {
    /// The text has no tree. The token at `start` is rejected: what is before it could still become a document, but
    /// not with it.
    Syntax {
        /// `syntax error at `, and the place.
        message: String,
        /// Where the rejected token begins, or the text ends.
        start: Pos,
        /// None: the token that begins at `start` is rejected as a whole.
        end: Option<Pos>,
    },
    /// A schema names a kind of operation twice.
    MultipleRoots {
        /// The kind.
        root: OperationType,
        /// The place of the schema.
        schema: Pos,
        /// Where the kind is named again.
        pos: Pos,
    },
    /// A schema has no type for queries.
    MissingQueryRoot {
        /// The place of the schema.
        pos: Pos,
    },
    /// An operation without a name isn't the only operation.
    MultipleOperations {
        /// Its place.
        anonymous: Pos,
        /// The place of another operation.
        operation: Pos,
    },
    /// Two operations have one name.
    OperationDuplicated {
        /// The name.
        operation: Name,
        /// The place of the earlier one.
        first: Pos,
        /// The place of the later one.
        second: Pos,
    },
    /// Two fragments have one name.
    FragmentDuplicated {
        /// The name.
        fragment: Name,
        /// The place of the earlier one.
        first: Pos,
        /// The place of the later one.
        second: Pos,
    },
    /// A request has fragments alone.
    MissingOperation,
    /// The text has no tree within the limits, and the rejected token could go on if they were greater.
    RecursionLimitExceeded,
    /// Memory was refused. Nothing is known of the text.
    OutOfMemory,
    /// One of the limits is over [`Limits::LARGEST`](crate::Limits::LARGEST). The text wasn't read.
    LimitTooLarge,
    /// What a later version of the library reports, and this crate has no name for.
    Other {
        /// The library's number for it.
        status: u32,
        /// The library's message.
        message: String,
        /// The places that it is about, the most important first.
        places: [Option<Pos>; 2],
    },
}

impl Error {
    /// The places that the error is about, the most important first: none, one or two.
    #[must_use]
    pub fn positions(&self) -> ErrorPositions {
        ErrorPositions(match self {
            Error::Syntax { start, end, .. } => [Some(*start), *end],
            Error::MultipleRoots { schema, pos, .. } => [Some(*pos), Some(*schema)],
            Error::MissingQueryRoot { pos } => [Some(*pos), None],
            Error::MultipleOperations {
                anonymous,
                operation,
            } => [Some(*anonymous), Some(*operation)],
            Error::OperationDuplicated { first, second, .. }
            | Error::FragmentDuplicated { first, second, .. } => [Some(*second), Some(*first)],
            Error::Other { places, .. } => *places,
            Error::MissingOperation
            | Error::RecursionLimitExceeded
            | Error::OutOfMemory
            | Error::LimitTooLarge => [None, None],
        })
    }

    /// The error as an entry of `errors` in a response (section 7.1.2): its `message`, and its `locations` if it has
    /// places.
    ///
    /// ```
    /// let error = graphql_parser::Error::MissingQueryRoot { pos: (3, 14).into() };
    /// assert_eq!(
    ///     error.to_json(),
    ///     r#"{"message":"schema definition is missing query root","locations":[{"line":3,"column":14}]}"#
    /// );
    /// ```
    #[must_use]
    pub fn to_json(&self) -> String {
        let mut json = String::from("{\"message\":");
        push_string(&mut json, &self.to_string());
        let mut before = ",\"locations\":[";
        for Pos { line, column } in self.positions() {
            json += &format!("{before}{{\"line\":{line},\"column\":{column}}}");
            before = ",";
        }
        json += if before == "," { "]}" } else { "}" };
        json
    }

    // The error that a status means, with its places. Without the library's message there is none for a status whose
    // error has a name in it, nor for one that isn't known.
    pub(crate) fn of(
        status: u32,
        places: [Option<Pos>; 2],
        message: Option<&str>,
    ) -> Option<Error> {
        let [first, second] = places.map(Option::unwrap_or_default);
        let named = |before, after| {
            let rest = message?.strip_prefix(before)?;
            rest.strip_suffix(after)
        };
        let twice = " is defined twice";
        let error = match status {
            1 => Some(Error::OutOfMemory),
            3 => Some(Error::LimitTooLarge),
            4 => Some(Error::Syntax {
                message: format!("syntax error at {first}"),
                start: first,
                end: None,
            }),
            5 => Some(Error::RecursionLimitExceeded),
            6 => Some(Error::MultipleOperations {
                anonymous: first,
                operation: second,
            }),
            7 => named("operation ", twice).map(|name| Error::OperationDuplicated {
                operation: Name::new(name),
                first: second,
                second: first,
            }),
            8 => named("fragment ", twice).map(|name| Error::FragmentDuplicated {
                fragment: Name::new(name),
                first: second,
                second: first,
            }),
            9 => Some(Error::MissingOperation),
            10 => named("multiple ", " roots in schema definition")
                .and_then(operation_type)
                .map(|root| Error::MultipleRoots {
                    root,
                    schema: second,
                    pos: first,
                }),
            11 => Some(Error::MissingQueryRoot { pos: first }),
            // 2 says that the text isn't UTF-8, which a `str` is.
            _ => None,
        };
        error.or_else(|| {
            message.map(|message| Error::Other {
                status,
                message: message.to_owned(),
                places,
            })
        })
    }
}

/// The kind of operation that a keyword means.
pub(crate) fn operation_type(word: &str) -> Option<OperationType> {
    match word {
        "query" => Some(OperationType::Query),
        "mutation" => Some(OperationType::Mutation),
        "subscription" => Some(OperationType::Subscription),
        _ => None,
    }
}

/// The message of an error in JSON, which is its first member. A message with an escape in it is left out; none has one.
pub(crate) fn message_of(json: &str) -> Option<&str> {
    let rest = json.strip_prefix(r#"{"message":""#)?;
    let end = rest.find(['"', '\\'])?;
    rest[end..].starts_with('"').then(|| &rest[..end])
}

// Adds a text as a string of JSON.
fn push_string(json: &mut String, text: &str) {
    json.push('"');
    for c in text.chars() {
        match c {
            '"' | '\\' => json.extend(['\\', c]),
            c if c < ' ' => *json += &format!("\\u{:04x}", u32::from(c)),
            c => json.push(c),
        }
    }
    json.push('"');
}

impl Display for Error {
    fn fmt(&self, f: &mut Formatter<'_>) -> fmt::Result {
        match self {
            Error::Syntax { message, .. } | Error::Other { message, .. } => f.write_str(message),
            Error::MultipleRoots { root, .. } => {
                write!(f, "multiple {root} roots in schema definition")
            }
            Error::MissingQueryRoot { .. } => {
                f.write_str("schema definition is missing query root")
            }
            Error::MultipleOperations { .. } => {
                f.write_str("document contains multiple operations")
            }
            Error::OperationDuplicated { operation, .. } => {
                write!(f, "operation {operation} is defined twice")
            }
            Error::FragmentDuplicated { fragment, .. } => {
                write!(f, "fragment {fragment} is defined twice")
            }
            Error::MissingOperation => f.write_str("document does not contain an operation"),
            Error::RecursionLimitExceeded => f.write_str("recursion limit exceeded."),
            Error::OutOfMemory => f.write_str("out of memory"),
            Error::LimitTooLarge => f.write_str("a limit is over 256"),
        }
    }
}

impl std::error::Error for Error {}

/// A [`Result`](std::result::Result) with this crate's [`Error`].
pub type Result<T> = std::result::Result<T, Error>;

/// The places that an error is about, the most important first.
#[derive(Clone, Debug)]
pub struct ErrorPositions([Option<Pos>; 2]);

impl Iterator for ErrorPositions {
    type Item = Pos;

    fn next(&mut self) -> Option<Pos> {
        let [first, second] = &mut self.0;
        std::mem::replace(first, second.take())
    }

    fn size_hint(&self) -> (usize, Option<usize>) {
        (self.len(), Some(self.len()))
    }
}

impl DoubleEndedIterator for ErrorPositions {
    fn next_back(&mut self) -> Option<Pos> {
        let [first, second] = &mut self.0;
        second.take().or_else(|| first.take())
    }
}

impl ExactSizeIterator for ErrorPositions {
    fn len(&self) -> usize {
        self.0.iter().flatten().count()
    }
}

impl FusedIterator for ErrorPositions {}

#[cfg(test)]
mod tests {
    use super::{message_of, Error};
    use crate::pos::Pos;

    const PLACES: [Option<Pos>; 2] = [
        Some(Pos { line: 2, column: 3 }),
        Some(Pos { line: 1, column: 4 }),
    ];

    #[test]
    fn a_status_of_a_later_library_keeps_its_number() {
        assert_eq!(Error::of(12, PLACES, None), None);
        let error = Error::of(12, PLACES, Some("a \"b\"\n")).unwrap();
        assert!(matches!(error, Error::Other { status: 12, .. }));
        assert_eq!(
            error.to_json(),
            r#"{"message":"a \"b\"\u000a","locations":[{"line":2,"column":3},{"line":1,"column":4}]}"#
        );
    }

    #[test]
    fn a_name_is_taken_from_the_message() {
        assert_eq!(Error::of(7, PLACES, None), None);
        let error = Error::of(7, PLACES, Some("operation A is defined twice")).unwrap();
        assert!(matches!(&error, Error::OperationDuplicated { operation, .. } if operation == "A"));
        assert_eq!(error.to_string(), "operation A is defined twice");
        let error = Error::of(7, PLACES, Some("another message")).unwrap();
        assert!(matches!(error, Error::Other { status: 7, .. }));
    }

    #[test]
    fn places_are_given_from_both_ends() {
        let error = Error::of(6, PLACES, None).unwrap();
        let [first, second] = PLACES;
        let mut places = error.positions();
        assert_eq!(places.len(), 2);
        assert_eq!((places.next_back(), places.len()), (second, 1));
        assert_eq!(
            (places.next_back(), places.next_back(), places.next()),
            (first, None, None)
        );
        assert!(error.positions().eq(PLACES.into_iter().flatten()));
        assert_eq!(Error::MissingOperation.positions().len(), 0);
    }

    #[test]
    fn a_message_is_that_of_the_json() {
        assert_eq!(message_of(r#"{"message":"a b"}"#), Some("a b"));
        assert_eq!(message_of(r#"{"message":"a","locations":[]}"#), Some("a"));
        assert_eq!(message_of(r#"{"message":"a\"b"}"#), None);
        assert_eq!(message_of(r#"{"kind":"Document"}"#), None);
    }
}
