//! Numbers, as they were written.
use super::ShortText;
use std::fmt;
use std::hash::{Hash, Hasher};
use std::str::FromStr;

/// A number, as the literal that was written: nothing is rounded and nothing rewritten.
///
/// Numbers are equal if their literals are, so `1.0` and `1.00` differ, and so do `0` and `-0`.
#[derive(Clone)]
pub struct Number(ShortText);

impl Number {
    // The number whose literal the first bytes are, of which there are so many.
    #[inline(always)]
    pub(crate) fn at_front(bytes: &[u8], length: usize) -> Option<Number> {
        ShortText::at_front(bytes, length).map(Number)
    }

    /// The shortest literal that means a float; None for an infinite one and for one that is no number.
    #[must_use]
    pub fn from_f64(float: f64) -> Option<Number> {
        let literal = format!("{float:?}");
        float.is_finite().then(|| Number(ShortText::new(&literal)))
    }

    /// The literal, borrowed.
    #[must_use]
    pub fn as_str(&self) -> &str {
        self.0.as_str()
    }

    /// The value of a literal that has no fraction and no exponent, if it fits an `i64`; else None. It goes by the
    /// literal alone: `1.0` and `1e3` have none, and `-0` is 0.
    #[must_use]
    pub fn as_i64(&self) -> Option<i64> {
        self.as_str().parse().ok()
    }

    /// The value of a literal that has no fraction and no exponent, if it fits a `u64`; else None. It goes by the
    /// literal alone: `1.0` and `1e3` have none, and `-0` is 0.
    #[must_use]
    pub fn as_u64(&self) -> Option<u64> {
        match self.as_str() {
            "-0" => Some(0),
            literal => literal.parse().ok(),
        }
    }

    /// The float that lies closest to the literal; None if that is infinite, as for `1e400`.
    #[must_use]
    pub fn as_f64(&self) -> Option<f64> {
        self.as_str()
            .parse()
            .ok()
            .filter(|float: &f64| float.is_finite())
    }

    /// Whether [`Number::as_i64`] returns a value.
    #[must_use]
    pub fn is_i64(&self) -> bool {
        self.as_i64().is_some()
    }

    /// Whether [`Number::as_u64`] returns a value.
    #[must_use]
    pub fn is_u64(&self) -> bool {
        self.as_u64().is_some()
    }

    /// Whether [`Number::as_f64`] alone returns a value.
    #[must_use]
    pub fn is_f64(&self) -> bool {
        !self.is_i64() && !self.is_u64() && self.as_f64().is_some()
    }
}

// How many bytes a run of digits has.
fn digits(bytes: &[u8]) -> usize {
    bytes
        .iter()
        .take_while(|byte| byte.is_ascii_digit())
        .count()
}

// What follows the digits at the front of a text; none if there are no digits.
fn after_digits(bytes: &[u8]) -> Option<&[u8]> {
    match digits(bytes) {
        0 => None,
        count => Some(&bytes[count..]),
    }
}

// What follows the number at the front of a text (sections 2.9.1 and 2.9.2); none if there is no number.
fn after_number(bytes: &[u8]) -> Option<&[u8]> {
    let whole = bytes.strip_prefix(b"-").unwrap_or(bytes);
    let mut rest = match whole {
        [b'0', rest @ ..] => rest,
        _ => after_digits(whole)?,
    };
    if let [b'.', fraction @ ..] = rest {
        rest = after_digits(fraction)?;
    }
    if let [b'e' | b'E', exponent @ ..] = rest {
        let unsigned = match exponent {
            [b'+' | b'-', unsigned @ ..] => unsigned,
            _ => exponent,
        };
        rest = after_digits(unsigned)?;
    }
    Some(rest)
}

/// Why a text has no [`Number`]: it isn't a number literal of the grammar.
#[derive(Clone, Copy, Debug, PartialEq, Eq)]
pub struct NotANumber;

impl fmt::Display for NotANumber {
    fn fmt(&self, f: &mut fmt::Formatter<'_>) -> fmt::Result {
        f.write_str("not a number literal of GraphQL")
    }
}

impl std::error::Error for NotANumber {}

impl FromStr for Number {
    type Err = NotANumber;

    /// The number of this literal, or an error if the text is no number literal of the grammar (sections 2.9.1 and
    /// 2.9.2).
    fn from_str(literal: &str) -> Result<Number, NotANumber> {
        match after_number(literal.as_bytes()) {
            Some([]) => Ok(Number(ShortText::new(literal))),
            _ => Err(NotANumber),
        }
    }
}

/// The numbers of an integer type, in decimal digits.
macro_rules! from_integers {
    ($($integer:ty)*) => {
        $(impl From<$integer> for Number {
            fn from(integer: $integer) -> Number {
                Number(ShortText::new(&integer.to_string()))
            }
        })*
    };
}

from_integers!(i8 i16 i32 i64 isize u8 u16 u32 u64 usize);

impl PartialEq for Number {
    fn eq(&self, other: &Number) -> bool {
        self.as_str() == other.as_str()
    }
}

impl Eq for Number {}

impl Hash for Number {
    fn hash<H: Hasher>(&self, state: &mut H) {
        self.as_str().hash(state);
    }
}

impl fmt::Debug for Number {
    fn fmt(&self, f: &mut fmt::Formatter<'_>) -> fmt::Result {
        write!(f, "Number({self})")
    }
}

/// The literal.
impl fmt::Display for Number {
    fn fmt(&self, f: &mut fmt::Formatter<'_>) -> fmt::Result {
        f.pad(self.as_str())
    }
}

#[cfg(test)]
mod tests {
    use super::Number;

    #[test]
    fn a_number_is_a_literal_of_the_grammar() {
        for literal in [
            "0", "-0", "1", "-12", "1.0", "0.50", "1e3", "-1.5E+30", "2e-7",
        ] {
            assert_eq!(literal.parse::<Number>().unwrap().to_string(), literal);
        }
        for text in [
            "", "-", "01", "+1", "1.", ".1", "1e", "1e+", "1.e3", "1x", " 1", "0x1", "--1",
        ] {
            assert!(text.parse::<Number>().is_err(), "{text}");
        }
    }

    #[test]
    fn a_number_is_read_as_integers_and_floats_are() {
        let number = |literal: &str| literal.parse::<Number>().unwrap();
        assert_eq!(number("-0").as_i64(), Some(0));
        assert_eq!(number("-0").as_u64(), Some(0));
        assert_eq!(number("9223372036854775808").as_i64(), None);
        assert_eq!(number("9223372036854775808").as_u64(), Some(1 << 63));
        assert_eq!(number("1e3").as_i64(), None);
        assert_eq!(number("1e3").as_f64(), Some(1000.0));
        assert_eq!(number("1e400").as_f64(), None);
        assert!(number("1.5").is_f64() && !number("1").is_f64() && !number("1e400").is_f64());
        assert_eq!(Number::from(-7i32).as_str(), "-7");
        assert_eq!(Number::from_f64(0.5).unwrap().as_str(), "0.5");
        assert!(Number::from_f64(1e300)
            .unwrap()
            .as_str()
            .parse::<Number>()
            .is_ok());
        assert_eq!(Number::from_f64(f64::NAN), None);
    }
}
