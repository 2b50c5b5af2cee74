//! Values that may contain variables to values without, and back, and values of other types.
use super::{ConstValue, IndexMap, Name, Number, Value};

impl ConstValue {
    /// The same value as one that may contain variables.
    #[must_use]
    pub fn into_value(self) -> Value {
        match self {
            ConstValue::Null => Value::Null,
            ConstValue::Number(number) => Value::Number(number),
            ConstValue::String(text) => Value::String(text),
            ConstValue::Boolean(value) => Value::Boolean(value),
            ConstValue::Enum(name) => Value::Enum(name),
            ConstValue::List(items) => {
                Value::List(items.into_iter().map(ConstValue::into_value).collect())
            }
            ConstValue::Object(fields) => Value::Object(IndexMap::of_distinct(
                fields
                    .into_iter()
                    .map(|(name, value)| (name, value.into_value()))
                    .collect(),
            )),
        }
    }
}

impl Value {
    /// The same value as one without variables; None exactly if it contains a variable at any depth.
    #[must_use]
    pub fn into_const(self) -> Option<ConstValue> {
        self.into_const_with(|_| Err(())).ok()
    }

    /// The same value with what `f` returns in the place of each variable.
    ///
    /// # Errors
    ///
    /// The first error of `f`, in the order of the value.
    pub fn into_const_with<E>(
        self,
        mut f: impl FnMut(Name) -> Result<ConstValue, E>,
    ) -> Result<ConstValue, E> {
        self.replaced(&mut f)
    }

    fn replaced<E>(
        self,
        f: &mut impl FnMut(Name) -> Result<ConstValue, E>,
    ) -> Result<ConstValue, E> {
        Ok(match self {
            Value::Variable(name) => f(name)?,
            Value::Null => ConstValue::Null,
            Value::Number(number) => ConstValue::Number(number),
            Value::String(text) => ConstValue::String(text),
            Value::Boolean(value) => ConstValue::Boolean(value),
            Value::Enum(name) => ConstValue::Enum(name),
            Value::List(items) => ConstValue::List(
                items
                    .into_iter()
                    .map(|item| item.replaced(f))
                    .collect::<Result<_, E>>()?,
            ),
            Value::Object(fields) => ConstValue::Object(IndexMap::of_distinct(
                fields
                    .into_iter()
                    .map(|(name, value)| Ok((name, value.replaced(f)?)))
                    .collect::<Result<_, E>>()?,
            )),
        })
    }
}

/// The values of other types, for a type of values.
macro_rules! from_others {
    ($value:ident: $($integer:ty)*) => {
        /// Null.
        impl From<()> for $value {
            fn from((): ()) -> $value {
                $value::Null
            }
        }

        impl From<Number> for $value {
            fn from(number: Number) -> $value {
                $value::Number(number)
            }
        }

        $(impl From<$integer> for $value {
            fn from(integer: $integer) -> $value {
                $value::Number(integer.into())
            }
        })*

        /// A number; null for an infinite float and for one that is no number.
        impl From<f64> for $value {
            fn from(float: f64) -> $value {
                Number::from_f64(float).map_or($value::Null, $value::Number)
            }
        }

        impl From<String> for $value {
            fn from(text: String) -> $value {
                $value::String(text)
            }
        }

        impl From<&str> for $value {
            fn from(text: &str) -> $value {
                $value::String(text.to_owned())
            }
        }

        impl From<bool> for $value {
            fn from(value: bool) -> $value {
                $value::Boolean(value)
            }
        }

        /// A value of an enum.
        impl From<Name> for $value {
            fn from(name: Name) -> $value {
                $value::Enum(name)
            }
        }

        impl<T: Into<$value>> From<Vec<T>> for $value {
            fn from(items: Vec<T>) -> $value {
                items.into_iter().collect()
            }
        }

        impl<T: Into<$value>> FromIterator<T> for $value {
            fn from_iter<I: IntoIterator<Item = T>>(items: I) -> $value {
                $value::List(items.into_iter().map(Into::into).collect())
            }
        }

        impl From<IndexMap<Name, $value>> for $value {
            fn from(fields: IndexMap<Name, $value>) -> $value {
                $value::Object(fields)
            }
        }
    };
}

from_others!(ConstValue: i8 i16 i32 i64 isize u8 u16 u32 u64 usize);
from_others!(Value: i8 i16 i32 i64 isize u8 u16 u32 u64 usize);

impl From<ConstValue> for Value {
    fn from(value: ConstValue) -> Value {
        value.into_value()
    }
}

#[cfg(test)]
mod tests {
    use super::super::{ConstValue, IndexMap, Name, Value};

    fn object(field: Value) -> Value {
        Value::List(vec![IndexMap::from([(Name::new("a"), field)]).into()])
    }

    #[test]
    fn variables_are_replaced_at_any_depth() {
        let value = object(Value::Variable(Name::new("v")));
        assert_eq!(value.clone().into_const(), None);
        let replaced = value.into_const_with(|name| Ok::<_, ()>(name.as_str().into()));
        assert_eq!(replaced, Ok(object("v".into()).into_const().unwrap()));
    }

    #[test]
    fn a_value_without_variables_goes_there_and_back() {
        let value = object(Value::from(vec![1.5, 2.0]));
        let constant = value.clone().into_const().unwrap();
        assert_eq!(constant.into_value(), value);
        assert_eq!(ConstValue::from(f64::INFINITY), ConstValue::Null);
    }
}
