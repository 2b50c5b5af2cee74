//! A parser of GraphQL requests and schema files whose every function is proved, for Rust.
//!
//! [`parse_query`] and [`parse_schema`] return the tree of a text, in plain Rust: the types of [`types`] and [`value`], each
//! node with its line and its column. They have the names of async-graphql-parser 7.2.1, so that a program that was
//! written for that crate changes its imports. [`check_query`] and [`check_schema`] check a text without a tree.
//! [`explain_query`] and [`explain_schema`] return a report for people of what is wrong with a text. [`minify_query`],
//! [`format_query`] and those of schema files write a text anew; [`print_query`] and [`print_schema`] return a tree as text.
//! [`json`] returns trees as JSON.
//!
//! All of them borrow the text, may be called from any number of threads, and never panic. Selection sets, values and types
//! nest 64 deep each, unless [`Limits`] say otherwise.
//!
//! ```
//! use graphql_parser::types::Selection;
//! use graphql_parser::{parse_query, Error};
//!
//! let document = parse_query("{ hero(id: 7) { name } }")?;
//! for (_, operation) in document.operations.iter() {
//!     for selection in &operation.node.selection_set.node.items {
//!         if let Selection::Field(field) = &selection.node {
//!             assert_eq!(field.node.name.node, "hero");
//!             assert_eq!(field.node.get_argument("id").unwrap().to_string(), "7");
//!             assert_eq!(field.pos.to_string(), "1:3");
//!         }
//!     }
//! }
//!
//! let error = parse_query("{ hero { name }").unwrap_err();
//! assert!(matches!(error, Error::Syntax { .. }));
//! assert_eq!(error.to_string(), "syntax error at 1:16");
//! # Ok::<(), Error>(())
//! ```
#![deny(missing_docs)]

mod as_str;
mod error;
pub mod json;
mod pos;
mod print;
mod raw;
mod read;
pub mod types;
pub mod value;

pub use error::{Error, ErrorPositions, Result};
use json::Places;
pub use pos::{Pos, Positioned};
use raw::{Block, CheckCall, HandingCall, Outcome, ParseCall, Text};
use types::{ExecutableDocument, ServiceDocument};

/// How deep a text may nest: three numbers, each at most [`Limits::LARGEST`].
#[derive(Clone, Copy, Debug, PartialEq, Eq)]
pub struct Limits {
    /// The selection sets inside an operation's or a fragment's own set. A schema file has none.
    pub selections: usize,
    /// The lists and objects of one value.
    pub values: usize,
    /// The lists of one type.
    pub types: usize,
}

impl Limits {
    /// The largest number that each of the three may be.
    pub const LARGEST: usize = 256;

    // The largest of each.
    const MOST: Limits = Limits {
        selections: Limits::LARGEST,
        values: Limits::LARGEST,
        types: Limits::LARGEST,
    };
}

/// 64 each.
impl Default for Limits {
    fn default() -> Self {
        Limits {
            selections: 64,
            values: 64,
            types: 64,
        }
    }
}

/// The tree of a request, within the limits of [`Limits::default`].
///
/// # Errors
///
/// Why the text isn't a request.
pub fn parse_query<T: AsRef<str>>(input: T) -> Result<ExecutableDocument> {
    parse_query_limited(input, Limits::default())
}

/// The tree of a schema file, within the limits of [`Limits::default`].
///
/// # Errors
///
/// Why the text isn't a schema file.
pub fn parse_schema<T: AsRef<str>>(input: T) -> Result<ServiceDocument> {
    parse_schema_limited(input, Limits::default())
}

/// The tree of a request.
///
/// # Errors
///
/// Why the text isn't a request within the limits, or that one of them is too large.
pub fn parse_query_limited<T: AsRef<str>>(input: T, limits: Limits) -> Result<ExecutableDocument> {
    let text = input.as_ref();
    let parse = raw::graphql_parser_parse_query;
    let bytes = packed(raw::pack_query(text, limits), parse, text, limits)?;
    read::request(&bytes).ok_or_else(unknown_form)
}

/// The tree of a schema file. It has no selection sets, so that the limit of these makes no difference.
///
/// # Errors
///
/// Why the text isn't a schema file within the limits, or that one of them is too large.
pub fn parse_schema_limited<T: AsRef<str>>(input: T, limits: Limits) -> Result<ServiceDocument> {
    let text = input.as_ref();
    let parse = raw::graphql_parser_parse_schema;
    let bytes = packed(raw::pack_schema(text, limits), parse, text, limits)?;
    read::schema_file(&bytes).ok_or_else(unknown_form)
}

/// Checks whether a text is a request. It makes no tree, and takes less time and memory than a parse; only an error that has
/// a name in it takes a second reading.
///
/// # Errors
///
/// Why the text isn't a request within the limits, or that one of them is too large.
pub fn check_query<T: AsRef<str>>(input: T, limits: Limits) -> Result<()> {
    check(
        raw::graphql_parser_check_query,
        raw::graphql_parser_parse_query,
        input.as_ref(),
        limits,
    )
}

/// Checks whether a text is a schema file. It makes no tree, and takes less time and memory than a parse; only an error that
/// has a name in it takes a second reading.
///
/// # Errors
///
/// Why the text isn't a schema file within the limits, or that one of them is too large.
pub fn check_schema<T: AsRef<str>>(input: T, limits: Limits) -> Result<()> {
    check(
        raw::graphql_parser_check_schema,
        raw::graphql_parser_parse_schema,
        input.as_ref(),
        limits,
    )
}

/// A report for people of what is wrong with a request; None if nothing is.
///
/// It says what was found and what was expected, with the line of the place and a caret under it, and with a second place
/// if the error has two. Each line ends in a line feed. The words may change with any version of the library. It takes at
/// most as long as some five checks.
///
/// ```
/// use graphql_parser::{explain_query, Limits};
///
/// let report = explain_query("{ hero() }", Limits::default())?;
/// let lines = concat!(
///     "1:8: syntax error: found \")\", expected a name\n",
///     " 1 | { hero() }\n",
///     "   |        ^\n",
/// );
/// assert_eq!(report.as_deref(), Some(lines));
/// # Ok::<(), graphql_parser::Error>(())
/// ```
///
/// # Errors
///
/// [`Error::OutOfMemory`], and [`Error::LimitTooLarge`]: then the text wasn't read.
pub fn explain_query<T: AsRef<str>>(input: T, limits: Limits) -> Result<Option<String>> {
    explained(raw::explain_query(input.as_ref(), limits))
}

/// A report for people of what is wrong with a schema file, as [`explain_query`] returns one of a request; None if nothing
/// is.
///
/// # Errors
///
/// [`Error::OutOfMemory`], and [`Error::LimitTooLarge`]: then the text wasn't read.
pub fn explain_schema<T: AsRef<str>>(input: T, limits: Limits) -> Result<Option<String>> {
    explained(raw::explain_schema(input.as_ref(), limits))
}

/// The request without what isn't needed in it: comments, and all blanks, line ends, commas and byte order marks, but for one
/// blank between two tokens that would be read as others if they touched. Block strings are written in few characters with
/// the same values, and other tokens as they are spelled, so it means the same.
///
/// ```
/// use graphql_parser::{minify_query, Limits};
///
/// assert_eq!(minify_query("{ hero { name } } # all", Limits::default())?, "{hero{name}}");
/// # Ok::<(), graphql_parser::Error>(())
/// ```
///
/// # Errors
///
/// Why the text isn't a request within the limits, or that one of them is too large.
pub fn minify_query<T: AsRef<str>>(input: T, limits: Limits) -> Result<String> {
    rewritten(
        raw::graphql_parser_minify_query,
        raw::graphql_parser_parse_query,
        input.as_ref(),
        limits,
    )
}

/// The schema file without what isn't needed in it, as [`minify_query`] leaves it out.
///
/// # Errors
///
/// Why the text isn't a schema file within the limits, or that one of them is too large.
pub fn minify_schema<T: AsRef<str>>(input: T, limits: Limits) -> Result<String> {
    rewritten(
        raw::graphql_parser_minify_schema,
        raw::graphql_parser_parse_schema,
        input.as_ref(),
        limits,
    )
}

/// The request laid out anew: two blanks for each level, a selection a line, a blank line between definitions. Its comments
/// stay, each between the same tokens. Block strings are laid out too, with the same values, and other tokens are as they were
/// spelled. There is no line feed at the end. The layout may change with any version of the library.
///
/// ```
/// use graphql_parser::{format_query, Limits};
///
/// let formatted = format_query("{hero(id:7){name}} # all", Limits::default())?;
/// assert_eq!(formatted, "{\n  hero(id: 7) {\n    name\n  }\n} # all");
/// # Ok::<(), graphql_parser::Error>(())
/// ```
///
/// # Errors
///
/// Why the text isn't a request within the limits, or that one of them is too large.
pub fn format_query<T: AsRef<str>>(input: T, limits: Limits) -> Result<String> {
    rewritten(
        raw::graphql_parser_format_query,
        raw::graphql_parser_parse_query,
        input.as_ref(),
        limits,
    )
}

/// The schema file laid out anew, as [`format_query`] lays out a request: a field, a value, a root a line.
///
/// # Errors
///
/// Why the text isn't a schema file within the limits, or that one of them is too large.
pub fn format_schema<T: AsRef<str>>(input: T, limits: Limits) -> Result<String> {
    rewritten(
        raw::graphql_parser_format_schema,
        raw::graphql_parser_parse_schema,
        input.as_ref(),
        limits,
    )
}

/// The request as text, laid out as [`format_query`] lays out texts: its operations and fragments in the order of their places,
/// each string in quotes, a query without a name, variables and directives as its selection set alone, and nothing that may be
/// left out. A parse of it returns the tree again, but for places.
///
/// ```
/// use graphql_parser::{parse_query, print_query};
///
/// let document = parse_query("query { hero(id: 7) { name } } # all")?;
/// assert_eq!(print_query(&document)?, "{\n  hero(id: 7) {\n    name\n  }\n}");
/// # Ok::<(), graphql_parser::Error>(())
/// ```
///
/// # Errors
///
/// [`Error::OutOfMemory`]. If no text has the tree, such as one made by hand with an invalid name, without an operation, or
/// deeper than [`Limits::LARGEST`], the error of a parse of its tokens; its places mean nothing outside of this call.
pub fn print_query(document: &ExecutableDocument) -> Result<String> {
    format_query(print::request(document), Limits::MOST)
}

/// The schema file as text, laid out as [`format_schema`] lays out texts: its definitions in their order, the roots of a schema
/// in the order of their places, descriptions as block strings if that keeps them, other strings in quotes, and nothing that
/// may be left out. A parse of it returns the tree again, but for places.
///
/// # Errors
///
/// As those of [`print_query`].
pub fn print_schema(document: &ServiceDocument) -> Result<String> {
    format_schema(print::schema_file(document), Limits::MOST)
}

/// The three numbers of the version of the library that is linked, such as 1, 0 and 0.
#[must_use]
pub fn version() -> (u32, u32, u32) {
    let number = raw::version();
    (number / 10000, number / 100 % 100, number % 100)
}

// A check returns numbers alone. The name in an error comes from a parse of the same text.
fn check(call: CheckCall, parse: ParseCall, text: &str, limits: Limits) -> Result<()> {
    let (status, places) = raw::check(call, text, limits);
    if status == 0 {
        return Ok(());
    }
    Err(named_error(status, places, parse, text, limits))
}

// A tree that is returned. The name in an error comes from a parse of the same text.
fn packed(outcome: Outcome<Block>, parse: ParseCall, text: &str, limits: Limits) -> Result<Block> {
    match (outcome.status, outcome.handed) {
        (0, Some(bytes)) => Ok(bytes),
        (status, _) => Err(named_error(status, outcome.places, parse, text, limits)),
    }
}

// A text that is written anew. The name in an error comes from a parse of the same text.
fn rewritten(call: HandingCall, parse: ParseCall, text: &str, limits: Limits) -> Result<String> {
    let outcome = raw::rewrite(call, text, limits);
    match (outcome.status, outcome.handed) {
        (0, Some(text)) => Ok(text.to_owned()),
        (status, _) => Err(named_error(status, outcome.places, parse, text, limits)),
    }
}

// The error that a status other than 0 means. If it has a name, that comes from a parse of the text.
fn named_error(
    status: u32,
    places: [Option<Pos>; 2],
    parse: ParseCall,
    text: &str,
    limits: Limits,
) -> Error {
    Error::of(status, places, None).unwrap_or_else(|| {
        match json::parse(parse, text, limits, Places::LeftOut) {
            Ok(_) => refusal(status, places, None),
            Err(error) => error,
        }
    })
}

// An accepted text has no report, and neither has one that couldn't be read.
fn explained(outcome: Outcome<Text>) -> Result<Option<String>> {
    match (outcome.status, outcome.handed) {
        (0, _) => Ok(None),
        (_, Some(report)) => Ok(Some(report.to_owned())),
        (status, None) => Err(refusal(status, outcome.places, None)),
    }
}

// The error that a status of the library means, with the error in JSON, if there is one.
fn refusal(status: u32, places: [Option<Pos>; 2], json: Option<&str>) -> Error {
    let message = json.and_then(error::message_of);
    Error::of(status, places, message).unwrap_or_else(|| Error::Other {
        status,
        message: format!("refused with the status {status}"),
        places,
    })
}

// What is said of a tree whose bytes this crate doesn't know.
fn unknown_form() -> Error {
    Error::Other {
        status: 0,
        message: "the library's tree has a form that this crate doesn't know".to_owned(),
        places: [None, None],
    }
}

// The programs of the crate's page run as tests.
#[cfg(doctest)]
#[doc = include_str!("../README.md")]
struct Readme;
