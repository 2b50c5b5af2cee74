//! What requests and schema files share: names, values, types and directives.
use super::{Print, Tokens, NO_TOKEN};
use crate::pos::Positioned;
use crate::types::{BaseType, ConstDirective, Directive, OperationType, Type};
use crate::value::{ConstValue, Name, Printed, Value};

impl Tokens {
    // A name, if it is valid and none of those that mean something else there.
    pub(super) fn name_but(&mut self, others: &[&str], name: &Name) -> &mut Tokens {
        let name = name.as_str();
        let is_good = is_name(name) && !others.contains(&name);
        self.token(if is_good { name } else { NO_TOKEN })
    }
}

// Whether a text is a valid name (section 2.1.9).
fn is_name(text: &str) -> bool {
    let is_letter = |c: u8| c.is_ascii_alphabetic() || c == b'_';
    match text.as_bytes() {
        [first, rest @ ..] => {
            is_letter(*first) && rest.iter().all(|c| is_letter(*c) || c.is_ascii_digit())
        }
        [] => false,
    }
}

impl Print for Name {
    fn print(&self, out: &mut Tokens) {
        out.name_but(&[], self);
    }
}

// A string in quotes.
impl Print for Printed<'_> {
    fn print(&self, out: &mut Tokens) {
        out.token(&self.to_string());
    }
}

impl Print for OperationType {
    fn print(&self, out: &mut Tokens) {
        out.token(match self {
            OperationType::Query => "query",
            OperationType::Mutation => "mutation",
            OperationType::Subscription => "subscription",
        });
    }
}

/// Has types of values written, with the case of a variable if they have one.
macro_rules! values {
    ($($value:ident { $($variable:ident)? })*) => {$(
        impl Print for $value {
            fn print(&self, out: &mut Tokens) {
                match self {
                    $($value::$variable(name) => out.token("$").part(name),)?
                    $value::Null => out.token("null"),
                    $value::Number(number) => out.token(number.as_str()),
                    $value::String(text) => out.part(&Printed(text)),
                    $value::Boolean(false) => out.token("false"),
                    $value::Boolean(true) => out.token("true"),
                    $value::Enum(name) => out.name_but(&["true", "false", "null"], name),
                    $value::List(items) => out.token("[").part(&items[..]).token("]"),
                    $value::Object(fields) => {
                        out.token("{");
                        for (name, value) in fields {
                            out.part(name).token(":").part(value);
                        }
                        out.token("}")
                    }
                };
            }
        }
    )*};
}

values! {
    Value { Variable }
    ConstValue {}
}

// An argument.
impl<V: Print> Print for (Positioned<Name>, Positioned<V>) {
    fn print(&self, out: &mut Tokens) {
        out.part(&self.0).token(":").part(&self.1);
    }
}

impl Print for Directive {
    fn print(&self, out: &mut Tokens) {
        out.token("@")
            .part(&self.name)
            .between("(", &self.arguments, ")");
    }
}

impl Print for ConstDirective {
    fn print(&self, out: &mut Tokens) {
        out.token("@")
            .part(&self.name)
            .between("(", &self.arguments, ")");
    }
}

impl Print for Type {
    fn print(&self, out: &mut Tokens) {
        out.part(&self.base);
        if !self.nullable {
            out.token("!");
        }
    }
}

impl Print for BaseType {
    fn print(&self, out: &mut Tokens) {
        match self {
            BaseType::Named(name) => out.part(name),
            BaseType::List(inner) => out.token("[").part(&**inner).token("]"),
        };
    }
}
