//! Trees as JSON, in the form of GraphQL.js, for whatever else reads such trees.
//!
//! ```
//! use graphql_parser::json::{self, Places};
//! use graphql_parser::Limits;
//!
//! let tree = json::parse_query("{ hero { name } }", Limits::default(), Places::LeftOut)?;
//! assert!(tree.starts_with(r#"{"kind":"Document""#));
//! # Ok::<(), graphql_parser::Error>(())
//! ```
use crate::as_str::is_a_str;
use crate::raw::{self, ParseCall, Text};
use crate::{refusal, Limits, Result};
use std::fmt;

/// Whether the nodes of a tree are written with their places, as the members `line` and `column`. The document, the names of
/// operations and fragments, the name in a variable that is a value, the roots of a schema, and what is inside a list, an
/// object or a list type have none.
#[derive(Clone, Copy, Debug, PartialEq, Eq)]
pub enum Places {
    /// No node has a place.
    LeftOut,
    /// Each node has its place, but for those named above.
    Written,
}

/// The tree of the request `text`, as JSON.
///
/// # Errors
///
/// Why it isn't a request within the limits; [`Error::to_json`](crate::Error::to_json) is for a response.
pub fn parse_query(text: &str, limits: Limits, places: Places) -> Result<Json> {
    parse(raw::graphql_parser_parse_query, text, limits, places)
}

/// The tree of the schema file `text`, as JSON.
///
/// # Errors
///
/// Why it isn't a schema file within the limits; [`Error::to_json`](crate::Error::to_json) is for a response.
pub fn parse_schema(text: &str, limits: Limits, places: Places) -> Result<Json> {
    parse(raw::graphql_parser_parse_schema, text, limits, places)
}

// The tree of a text, as a call of the library returns it.
pub(crate) fn parse(call: ParseCall, text: &str, limits: Limits, places: Places) -> Result<Json> {
    let outcome = raw::parse(call, text, limits, places);
    match (outcome.status, outcome.handed) {
        (0, Some(json)) => Ok(Json(json)),
        (status, json) => Err(refusal(status, outcome.places, json.as_deref())),
    }
}

/// A text of JSON. It is a `str` wherever one is wanted, and lies where the parser wrote it: nothing is copied.
pub struct Json(Text);

impl Json {
    /// The text.
    pub fn as_str(&self) -> &str {
        &self.0
    }
}

is_a_str!(Json);

impl fmt::Display for Json {
    fn fmt(&self, f: &mut fmt::Formatter<'_>) -> fmt::Result {
        f.write_str(self.as_str())
    }
}

impl fmt::Debug for Json {
    fn fmt(&self, f: &mut fmt::Formatter<'_>) -> fmt::Result {
        fmt::Debug::fmt(self.as_str(), f)
    }
}
