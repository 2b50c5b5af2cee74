//! Values as GraphQL text.
use super::{ConstValue, IndexMap, Name, Value};
use std::fmt::{self, Display, Formatter, Write};

/// Has a type of values shown, with the case of a variable if it has one.
macro_rules! shown {
    ($(#[$about:meta])* $value:ident $(, $variable:ident)?) => {
        $(#[$about])*
        impl Display for $value {
            fn fmt(&self, f: &mut Formatter<'_>) -> fmt::Result {
                match self {
                    $($value::$variable(name) => write!(f, "${name}"),)?
                    $value::Null => f.write_str("null"),
                    $value::Number(number) => f.write_str(number.as_str()),
                    $value::String(text) => Quoted(text).fmt(f),
                    $value::Boolean(value) => write!(f, "{value}"),
                    $value::Enum(name) => f.write_str(name),
                    $value::List(items) => write_list(items, f),
                    $value::Object(fields) => write_object(fields, f),
                }
            }
        }
    };
}

shown! {
    /// The value as GraphQL writes it (section 2.9): `{a: [1, 2]}`, on one line.
    ///
    /// A string is in quotes. In it `"`, `\` and control characters below U+0020 are escaped, and every other character
    /// is itself (this project's choice).
    ConstValue
}

shown! {
    /// The value as GraphQL writes it (section 2.9), as for [`ConstValue`]; a variable as `$name`.
    Value, Variable
}

fn write_list<V: Display>(items: &[V], f: &mut Formatter<'_>) -> fmt::Result {
    f.write_str("[")?;
    let mut before = "";
    for item in items {
        write!(f, "{before}{item}")?;
        before = ", ";
    }
    f.write_str("]")
}

fn write_object<V: Display>(fields: &IndexMap<Name, V>, f: &mut Formatter<'_>) -> fmt::Result {
    f.write_str("{")?;
    let mut before = "";
    for (name, value) in fields {
        write!(f, "{before}{name}: {value}")?;
        before = ", ";
    }
    f.write_str("}")
}

/// The string in quotes that means a text in a value that is shown.
pub(crate) struct Quoted<'a>(pub &'a str);

impl Display for Quoted<'_> {
    fn fmt(&self, f: &mut Formatter<'_>) -> fmt::Result {
        write_quoted(self.0, f, |c, f| match c {
            c if c < ' ' => write!(f, "\\u{:04x}", u32::from(c)),
            c => f.write_char(c),
        })
    }
}

/// The same in a printed tree, where control characters up to U+009F are escaped, with capital digits.
pub(crate) struct Printed<'a>(pub &'a str);

impl Display for Printed<'_> {
    fn fmt(&self, f: &mut Formatter<'_>) -> fmt::Result {
        write_quoted(self.0, f, |c, f| match c {
            c if c.is_control() => write!(f, "\\u{:04X}", u32::from(c)),
            c => f.write_char(c),
        })
    }
}

// Writes a text in quotes, in which `write_other` writes the characters that have no letter after a backslash.
fn write_quoted(
    text: &str,
    f: &mut Formatter<'_>,
    write_other: fn(char, &mut Formatter<'_>) -> fmt::Result,
) -> fmt::Result {
    f.write_str("\"")?;
    for c in text.chars() {
        match c {
            '"' | '\\' => write!(f, "\\{c}")?,
            '\n' => f.write_str("\\n")?,
            '\r' => f.write_str("\\r")?,
            '\t' => f.write_str("\\t")?,
            '\u{8}' => f.write_str("\\b")?,
            '\u{c}' => f.write_str("\\f")?,
            c => write_other(c, f)?,
        }
    }
    f.write_str("\"")
}
