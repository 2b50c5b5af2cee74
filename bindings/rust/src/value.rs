//! Names, numbers and values (section 2.9).
mod convert;
mod map;
mod name;
mod number;
mod shown;
mod text;

pub use map::{IndexMap, IntoIter, Iter, IterMut};
pub use name::Name;
pub use number::{NotANumber, Number};
pub(crate) use shown::Printed;
pub(crate) use text::ShortText;

/// Declares a type of values, with the cases that it has beside those of every value.
macro_rules! values {
    ($(#[$about:meta])* $value:ident { $($(#[$about_case:meta])* $case:ident($part:ty),)* }) => {
        $(#[$about])*
        #[derive(Clone, Debug, Default, PartialEq, Eq)]
        pub enum $value {
            $($(#[$about_case])* $case($part),)*
            /// `null`.
            #[default]
            Null,
            /// A number, by its literal.
            Number(Number),
            /// What a string or a block string means.
            String(String),
            /// `true` or `false`.
            Boolean(bool),
            /// A value of an enum: a name other than `true`, `false` and `null`.
            Enum(Name),
            /// The items of a list, in their order.
            List(Vec<$value>),
            /// The fields of an object, in the order of their first occurrence. Of a repeated name the last value
            /// counts.
            Object(IndexMap<Name, $value>),
        }
    };
}

values! {
    /// A value without variables, as in the default value of a variable.
    ///
    /// Two values are equal if they are the same case over equal parts: lists in their order, objects in any order,
    /// numbers by their literals.
    ConstValue {}
}

values! {
    /// A value that may contain variables, as in an argument of a field.
    ///
    /// Two values are equal if they are the same case over equal parts, as for [`ConstValue`].
    Value {
        /// A variable, by its name without the `$`.
        Variable(Name),
    }
}
