//! Trees out of the library's bytes.
//!
//! The library writes what a tree has part by part, as `crates/graphql_packed` says. That is read in one pass; bytes of another
//! form become `None`.
mod request;
mod schema;
mod values;

use crate::pos::{Pos, Positioned};
use crate::types::{ExecutableDocument, ServiceDocument};
use crate::value::{Name, Number};
use std::str;

/// The tree of a request.
pub(crate) fn request(bytes: &[u8]) -> Option<ExecutableDocument> {
    whole(bytes)
}

/// The tree of a schema file.
pub(crate) fn schema_file(bytes: &[u8]) -> Option<ServiceDocument> {
    whole(bytes)
}

// The part that all of the bytes are.
fn whole<T: Part>(bytes: &[u8]) -> Option<T> {
    let mut reader = Reader { rest: bytes };
    let part = reader.part()?;
    reader.rest.is_empty().then_some(part)
}

// What a tree is made of. Each part has a byte at least.
trait Part: Sized {
    fn read(reader: &mut Reader<'_>) -> Option<Self>;
}

/// Nodes whose parts follow one another, in this order.
macro_rules! nodes {
    ($($(#[$attribute:meta])* $node:ident { $($part:ident),* })*) => {$(
        impl Part for $node {
            $(#[$attribute])*
            fn read(reader: &mut Reader<'_>) -> Option<$node> {
                Some($node { $($part: reader.part()?),* })
            }
        }
    )*};
}

/// Choices by their numbers, each with a part or without.
macro_rules! choices {
    ($($choice:ident { $($number:literal: $case:ident $(($part:ty))?),* })*) => {$(
        impl Part for $choice {
            fn read(reader: &mut Reader<'_>) -> Option<$choice> {
                Some(match reader.choice()? {
                    $($number => $choice::$case $((reader.part::<$part>()?))?,)*
                    _ => return None,
                })
            }
        }
    )*};
}

use {choices, nodes};

// The bytes that are left to be read.
struct Reader<'a> {
    rest: &'a [u8],
}

impl<'a> Reader<'a> {
    #[inline(always)]
    fn part<T: Part>(&mut self) -> Option<T> {
        T::read(self)
    }

    // The number of a choice.
    #[inline(always)]
    fn choice(&mut self) -> Option<u8> {
        let (number, rest) = self.rest.split_first()?;
        self.rest = rest;
        Some(*number)
    }

    #[inline(always)]
    fn number(&mut self) -> Option<usize> {
        let (word, rest) = self.rest.split_first_chunk()?;
        self.rest = rest;
        usize::try_from(u64::from_le_bytes(*word)).ok()
    }

    // The bytes of a text, and all that is left from there on.
    #[inline(always)]
    fn text_bytes(&mut self) -> Option<(&'a [u8], &'a [u8])> {
        let length = self.number()?;
        let from_there = self.rest;
        let (text, rest) = from_there.split_at_checked(length)?;
        self.rest = rest;
        Some((text, from_there))
    }

    #[inline(always)]
    fn text(&mut self) -> Option<&'a str> {
        str::from_utf8(self.text_bytes()?.0).ok()
    }
}

impl Part for bool {
    #[inline(always)]
    fn read(reader: &mut Reader<'_>) -> Option<bool> {
        match reader.choice()? {
            0 => Some(false),
            1 => Some(true),
            _ => None,
        }
    }
}

impl Part for String {
    fn read(reader: &mut Reader<'_>) -> Option<String> {
        reader.text().map(str::to_owned)
    }
}

impl Part for Name {
    #[inline(always)]
    fn read(reader: &mut Reader<'_>) -> Option<Name> {
        let (text, from_there) = reader.text_bytes()?;
        Name::at_front(from_there, text.len())
    }
}

impl Part for Number {
    #[inline(always)]
    fn read(reader: &mut Reader<'_>) -> Option<Number> {
        let (text, from_there) = reader.text_bytes()?;
        Number::at_front(from_there, text.len())
    }
}

impl Part for Pos {
    #[inline(always)]
    fn read(reader: &mut Reader<'_>) -> Option<Pos> {
        Some(Pos {
            line: reader.number()?,
            column: reader.number()?,
        })
    }
}

// A node follows its place.
impl<T: Part> Part for Positioned<T> {
    #[inline(always)]
    fn read(reader: &mut Reader<'_>) -> Option<Positioned<T>> {
        let pos = reader.part()?;
        Some(Positioned::new(reader.part()?, pos))
    }
}

impl<T: Part, U: Part> Part for (T, U) {
    #[inline(always)]
    fn read(reader: &mut Reader<'_>) -> Option<(T, U)> {
        Some((reader.part()?, reader.part()?))
    }
}

// A part that may be missing.
impl<T: Part> Part for Option<T> {
    #[inline(always)]
    fn read(reader: &mut Reader<'_>) -> Option<Option<T>> {
        match reader.part()? {
            true => reader.part().map(Some),
            false => Some(None),
        }
    }
}

impl<T: Part> Part for Box<T> {
    fn read(reader: &mut Reader<'_>) -> Option<Box<T>> {
        reader.part().map(Box::new)
    }
}

impl<T: Part> Part for Vec<T> {
    #[inline(always)]
    fn read(reader: &mut Reader<'_>) -> Option<Vec<T>> {
        let count = reader.number()?;
        if count > reader.rest.len() {
            return None;
        }
        let mut items = Vec::with_capacity(count);
        for _ in 0..count {
            items.push(reader.part()?);
        }
        Some(items)
    }
}

#[cfg(test)]
mod tests {
    use super::{request, schema_file};
    use crate::types::{DocumentOperations, Selection, TypeSystemDefinition};
    use crate::value::Value;

    // A part of what the library writes.
    enum Part {
        Choice(u8),
        Number(u64),
        Text(&'static str),
    }

    use Part::{Choice, Number, Text};

    fn bytes_of(parts: &[Part]) -> Vec<u8> {
        let mut bytes = Vec::new();
        for part in parts {
            match part {
                Choice(number) => bytes.push(*number),
                Number(number) => bytes.extend(number.to_le_bytes()),
                Text(text) => {
                    bytes.extend((text.len() as u64).to_le_bytes());
                    bytes.extend(text.as_bytes());
                }
            }
        }
        bytes
    }

    // mutation A { b(c: ["\"x", null]) } at 1:1, 1:12, 20:345, 21:6 and 21:9.
    #[rustfmt::skip]
    const REQUEST: &[Part] = &[
        Number(1), Choice(1), Text("A"), Number(1), Number(1), Choice(1), Number(0), Number(0),
        Number(1), Number(12), Number(1),
        Choice(0), Number(20), Number(345), Choice(0), Number(20), Number(345), Text("b"),
        Number(1), Number(21), Number(6), Text("c"), Number(21), Number(9),
        Choice(7), Number(2), Choice(3), Text("\"x\u{1}\né"), Choice(1),
        Number(0), Number(0), Number(0), Number(0),
        Number(0),
    ];

    // extend union A = B, at 1:1, 1:14 and 1:18.
    #[rustfmt::skip]
    const SCHEMA: &[Part] = &[
        Number(1), Choice(1), Number(1), Number(1), Choice(1), Choice(0), Number(1), Number(14), Text("A"),
        Number(0), Choice(3), Number(1), Number(1), Number(18), Text("B"),
    ];

    #[test]
    fn a_request_is_read() {
        let document = request(&bytes_of(REQUEST)).unwrap();
        let DocumentOperations::Multiple(operations) = &document.operations else {
            panic!("a name");
        };
        let set = &operations["A"].node.selection_set;
        assert_eq!(set.pos, (1, 12).into());
        let Selection::Field(field) = &set.node.items[0].node else {
            panic!("a field");
        };
        assert_eq!(
            (field.pos, field.node.name.node.as_str()),
            ((20, 345).into(), "b")
        );
        let (name, value) = &field.node.arguments[0];
        assert_eq!((name.pos, value.pos), ((21, 6).into(), (21, 9).into()));
        assert_eq!(
            value.node,
            Value::List(vec!["\"x\u{1}\né".into(), Value::Null])
        );
        assert_eq!(field.node.selection_set.pos, (0, 0).into());
    }

    #[test]
    fn a_schema_file_is_read() {
        let document = schema_file(&bytes_of(SCHEMA)).unwrap();
        let TypeSystemDefinition::Type(definition) = &document.definitions[0] else {
            panic!("a type");
        };
        assert!(definition.node.extend);
        assert_eq!(definition.node.name.pos, (1, 14).into());
    }

    #[test]
    fn bytes_of_another_form_are_no_tree() {
        for bytes in [bytes_of(REQUEST), bytes_of(SCHEMA)] {
            for end in 0..bytes.len() {
                let (before, after) = bytes.split_at(end);
                assert!(request(before).is_none() && schema_file(before).is_none());
                // With one byte more, or another, there is a tree at some places, and nowhere a panic.
                for byte in [0, 1, 2, 9, 0x7f, 0x80, 0xff] {
                    let longer = [before, &[byte], after].concat();
                    let _ = (request(&longer), schema_file(&longer));
                    let other = [before, &[byte], &after[1..]].concat();
                    let _ = (request(&other), schema_file(&other));
                }
            }
            let longer = [&bytes[..], &[0]].concat();
            assert!(request(&longer).is_none() && schema_file(&longer).is_none());
        }
        assert!(request(&bytes_of(SCHEMA)).is_none());
        assert!(schema_file(&bytes_of(REQUEST)).is_none());
    }
}
