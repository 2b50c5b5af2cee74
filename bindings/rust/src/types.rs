//! The trees of requests ([`ExecutableDocument`]) and of schema files ([`ServiceDocument`]), by the GraphQL specification,
//! October 2021.
//!
//! A tree keeps each node at its place: a node is where its first token begins. All fields are public, and a tree that
//! a caller builds is as good as one that was read.

mod executable;
mod service;

use crate::pos::Positioned;
use crate::value::{ConstValue, Name, Value};
use std::fmt;

pub use executable::*;
pub use service::*;

/// The kind of an operation (section 2.3), and of a root of a schema (section 3.3.1).
#[derive(Clone, Copy, Debug, PartialEq, Eq)]
pub enum OperationType {
    /// A read, `query`.
    Query,
    /// A write that is followed by a read, `mutation`.
    Mutation,
    /// A long-lived request for events, `subscription`.
    Subscription,
}

/// The keyword: `query`, `mutation` or `subscription`.
impl fmt::Display for OperationType {
    fn fmt(&self, f: &mut fmt::Formatter<'_>) -> fmt::Result {
        f.write_str(match self {
            OperationType::Query => "query",
            OperationType::Mutation => "mutation",
            OperationType::Subscription => "subscription",
        })
    }
}

/// A type reference, as `[Int!]` (section 2.11).
#[derive(Clone, Debug, PartialEq, Eq)]
pub struct Type {
    /// The type without its mark.
    pub base: BaseType,
    /// Whether null is a value of the type: no `!` follows it.
    pub nullable: bool,
}

impl Type {
    /// The type reference that a text without blanks spells, as `[Int!]!`; None if a `[` has no `]`.
    ///
    /// What is inside the lists and before the `!` is taken for a name, whatever it is.
    #[must_use]
    pub fn new(ty: &str) -> Option<Type> {
        let (unmarked, nullable) = match ty.strip_suffix('!') {
            Some(unmarked) => (unmarked, false),
            None => (ty, true),
        };
        let base = match unmarked.strip_prefix('[') {
            Some(rest) => BaseType::List(Box::new(Type::new(rest.strip_suffix(']')?)?)),
            None => BaseType::Named(Name::new(unmarked)),
        };
        Some(Type { base, nullable })
    }
}

/// The reference as GraphQL writes it, without blanks.
impl fmt::Display for Type {
    fn fmt(&self, f: &mut fmt::Formatter<'_>) -> fmt::Result {
        let mark = if self.nullable { "" } else { "!" };
        write!(f, "{}{mark}", self.base)
    }
}

/// A type reference without its mark: a name, or a list.
#[derive(Clone, Debug, PartialEq, Eq)]
pub enum BaseType {
    /// A type by its name.
    Named(Name),
    /// The lists of a type.
    List(Box<Type>),
}

/// The reference as GraphQL writes it, without blanks.
impl fmt::Display for BaseType {
    fn fmt(&self, f: &mut fmt::Formatter<'_>) -> fmt::Result {
        match self {
            BaseType::Named(name) => f.write_str(name),
            BaseType::List(inner) => write!(f, "[{inner}]"),
        }
    }
}

/// The method that looks up an argument, for a type whose arguments have such values.
macro_rules! get_argument {
    ($value:ident) => {
        /// The value of the first argument of this name; None if there is none.
        #[must_use]
        pub fn get_argument(&self, name: &str) -> Option<&Positioned<$value>> {
            let mut arguments = self.arguments.iter();
            let (_, value) = arguments.find(|(key, _)| key.node == *name)?;
            Some(value)
        }
    };
}

use get_argument;

/// Declares a type of directives, whose arguments have such values.
macro_rules! directives {
    ($(#[$about:meta])* $directive:ident: $value:ident) => {
        $(#[$about])*
        ///
        /// The node is at its `@`.
        #[derive(Clone, Debug)]
        pub struct $directive {
            /// The name after the `@`.
            pub name: Positioned<Name>,
            /// The arguments, in source order. One name may come twice.
            pub arguments: Vec<(Positioned<Name>, Positioned<$value>)>,
        }

        impl $directive {
            get_argument!($value);
        }
    };
}

directives! {
    /// A directive whose arguments contain no variable, as in a schema file (section 2.12).
    ConstDirective: ConstValue
}

impl ConstDirective {
    /// The same directive as one that may contain variables.
    #[must_use]
    pub fn into_directive(self) -> Directive {
        let arguments = self.arguments.into_iter();
        Directive {
            name: self.name,
            arguments: arguments
                .map(|(name, value)| (name, value.map(ConstValue::into_value)))
                .collect(),
        }
    }
}

directives! {
    /// A directive whose arguments may contain variables (section 2.12).
    Directive: Value
}

impl Directive {
    /// The same directive as one without variables; None if one of its arguments contains a variable at any depth.
    #[must_use]
    pub fn into_const(self) -> Option<ConstDirective> {
        let arguments = self.arguments.into_iter();
        Some(ConstDirective {
            name: self.name,
            arguments: arguments
                .map(|(name, Positioned { pos, node })| {
                    Some((name, Positioned::new(node.into_const()?, pos)))
                })
                .collect::<Option<_>>()?,
        })
    }
}
