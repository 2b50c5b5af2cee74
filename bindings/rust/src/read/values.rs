//! What requests and schema files share: values, directives and types.
use super::{choices, nodes, Part, Reader};
use crate::types::{BaseType, ConstDirective, Directive, Type};
use crate::value::{ConstValue, IndexMap, Name, Value};

/// Has a type of values read, which may contain variables or not.
macro_rules! values {
    ($($value:ident { variable: $variable:expr })*) => {$(
        impl Part for $value {
            fn read(reader: &mut Reader<'_>) -> Option<$value> {
                Some(match reader.choice()? {
                    0 => $variable(reader.part()?)?,
                    1 => $value::Null,
                    2 => $value::Number(reader.part()?),
                    3 => $value::String(reader.part()?),
                    4 => $value::Boolean(false),
                    5 => $value::Boolean(true),
                    6 => $value::Enum(reader.part()?),
                    7 => $value::List(reader.part()?),
                    // The library returns each field of an object once.
                    8 => $value::Object(IndexMap::of_distinct(reader.part()?)),
                    _ => return None,
                })
            }
        }
    )*};
}

values! {
    Value { variable: |name| Some(Value::Variable(name)) }
    ConstValue { variable: |_: Name| None }
}

nodes! {
    Directive { name, arguments }
    ConstDirective { name, arguments }
    Type { nullable, base }
}

choices! {
    BaseType { 0: Named(_), 1: List(_) }
}
