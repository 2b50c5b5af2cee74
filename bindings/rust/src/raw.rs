//! The functions of C, as `graphql_parser.h` declares them, and what they return. All that is unsafe is here and in
//! `value::text`.
use crate::json::Places;
use crate::{Limits, Pos};
use std::ffi::c_void;
use std::ops::Deref;
use std::ptr::{self, NonNull};
use std::{slice, str};

#[repr(C)]
#[derive(Clone, Copy, Default)]
pub struct RawPlace {
    line: usize,
    column: usize,
}

#[repr(C)]
#[derive(Clone, Copy, Default)]
pub struct RawPlaces {
    first: RawPlace,
    second: RawPlace,
}

#[repr(C)]
pub struct RawBlock {
    start: *mut u8,
    length: usize,
}

/// Declares functions of C that read a text within limits and have these parameters besides, and the type of a pointer to one
/// of them.
macro_rules! functions {
    ($call:ident($($parameter:ident: $type:ty),*): $($function:ident),*) => {
        functions!(@declared $call, (
            text: *const u8,
            length: usize,
            selections: usize,
            values: usize,
            types: usize,
            $($parameter: $type),*
        ), $($function),*);
    };
    (@declared $call:ident, $parameters:tt, $($function:ident),*) => {
        pub type $call = unsafe extern "C" fn $parameters -> u32;

        extern "C" {
            $(pub fn $function $parameters -> u32;)*
        }
    };
}

functions! {
    CheckCall(places: *mut RawPlaces):
    graphql_parser_check_query,
    graphql_parser_check_schema
}

functions! {
    ParseCall(with_places: bool, places: *mut RawPlaces, json: *mut RawBlock):
    graphql_parser_parse_query,
    graphql_parser_parse_schema
}

functions! {
    HandingCall(places: *mut RawPlaces, block: *mut RawBlock):
    graphql_parser_explain_query,
    graphql_parser_explain_schema,
    graphql_parser_pack_query,
    graphql_parser_pack_schema,
    graphql_parser_minify_query,
    graphql_parser_minify_schema,
    graphql_parser_format_query,
    graphql_parser_format_schema
}

extern "C" {
    fn graphql_parser_version() -> u32;
    fn graphql_parser_free(block: *mut c_void);
}

/// The version of the library that is linked: its first number times 10000, its second times 100, and its third, together.
pub fn version() -> u32 {
    // SAFETY: the function needs nothing.
    unsafe { graphql_parser_version() }
}

/// Bytes that a call returned, where the call wrote them: nothing is copied.
pub struct Block {
    start: NonNull<u8>,
    length: usize,
}

// SAFETY: the block is owned, and nobody writes to it.
unsafe impl Send for Block {}
// SAFETY: as above; a shared `Block` only reads.
unsafe impl Sync for Block {}

impl Block {
    /// Takes over a block; none if it is null.
    ///
    /// # Safety
    ///
    /// `start` is null, or a block of the library that nobody else frees or writes to, and that has `length` bytes.
    unsafe fn of(RawBlock { start, length }: RawBlock) -> Option<Block> {
        NonNull::new(start).map(|start| Block { start, length })
    }
}

impl Deref for Block {
    type Target = [u8];

    fn deref(&self) -> &[u8] {
        // SAFETY: `of` took so many bytes, and they stay until `drop`.
        unsafe { slice::from_raw_parts(self.start.as_ptr(), self.length) }
    }
}

impl Drop for Block {
    fn drop(&mut self) {
        // SAFETY: the block is the library's and owned, and this is the one time that it is freed.
        unsafe { graphql_parser_free(self.start.as_ptr().cast()) }
    }
}

/// A text that a call returned.
pub struct Text(Block);

impl Deref for Text {
    type Target = str;

    fn deref(&self) -> &str {
        // SAFETY: `text_of` took a block of UTF-8.
        unsafe { str::from_utf8_unchecked(&self.0) }
    }
}

/// What a call returns.
pub struct Outcome<T> {
    pub status: u32,
    pub places: [Option<Pos>; 2],
    pub handed: Option<T>,
}

fn place(RawPlace { line, column }: RawPlace) -> Option<Pos> {
    (line > 0).then_some(Pos { line, column })
}

/// Has a function called with the limits, one by one, and with room for the places that it returns.
fn told(
    limits: Limits,
    call: impl FnOnce([usize; 3], &mut RawPlaces) -> u32,
) -> (u32, [Option<Pos>; 2]) {
    let Limits {
        selections,
        values,
        types,
    } = limits;
    let mut places = RawPlaces::default();
    let status = call([selections, values, types], &mut places);
    (status, [place(places.first), place(places.second)])
}

/// The status of a check, and its places.
pub fn check(call: CheckCall, text: &str, limits: Limits) -> (u32, [Option<Pos>; 2]) {
    let (start, length) = (text.as_ptr(), text.len());
    told(limits, |[selections, values, types], places| {
        // SAFETY: `start` and `length` are those of one `str`, and `places` is ours.
        unsafe { call(start, length, selections, values, types, places) }
    })
}

/// The status of a parse, its places, and the JSON that it returns.
pub fn parse(
    call: ParseCall,
    text: &str,
    limits: Limits,
    places_of_nodes: Places,
) -> Outcome<Text> {
    let (start, length) = (text.as_ptr(), text.len());
    let with_places = places_of_nodes == Places::Written;
    text_of(handed(
        limits,
        |[selections, values, types], places, json| {
            // SAFETY: as at `check`; `json` is ours, and overlaps nothing.
            unsafe {
                call(
                    start,
                    length,
                    selections,
                    values,
                    types,
                    with_places,
                    places,
                    json,
                )
            }
        },
    ))
}

/// The status of an explanation, its places, and the report that it returns.
pub fn explain_query(text: &str, limits: Limits) -> Outcome<Text> {
    text_of(hand(graphql_parser_explain_query, text, limits))
}

/// The same of a schema file.
pub fn explain_schema(text: &str, limits: Limits) -> Outcome<Text> {
    text_of(hand(graphql_parser_explain_schema, text, limits))
}

/// The status of a request, its places, and its tree as the library's own bytes, which `read` reads.
pub fn pack_query(text: &str, limits: Limits) -> Outcome<Block> {
    hand(graphql_parser_pack_query, text, limits)
}

/// The same of a schema file.
pub fn pack_schema(text: &str, limits: Limits) -> Outcome<Block> {
    hand(graphql_parser_pack_schema, text, limits)
}

/// The status of a text, its places, and what it is minified or formatted to.
pub fn rewrite(call: HandingCall, text: &str, limits: Limits) -> Outcome<Text> {
    text_of(hand(call, text, limits))
}

fn hand(call: HandingCall, text: &str, limits: Limits) -> Outcome<Block> {
    let (start, length) = (text.as_ptr(), text.len());
    handed(limits, |[selections, values, types], places, block| {
        // SAFETY: as at `parse`.
        unsafe { call(start, length, selections, values, types, places, block) }
    })
}

// What is returned, as text: parses, explanations and texts written anew are UTF-8.
fn text_of(outcome: Outcome<Block>) -> Outcome<Text> {
    let Outcome {
        status,
        places,
        handed,
    } = outcome;
    Outcome {
        status,
        places,
        handed: handed.map(Text),
    }
}

/// Has a function called as `told` does, with room for what it returns too.
fn handed(
    limits: Limits,
    call: impl FnOnce([usize; 3], &mut RawPlaces, &mut RawBlock) -> u32,
) -> Outcome<Block> {
    let mut block = RawBlock {
        start: ptr::null_mut(),
        length: 0,
    };
    let (status, places) = told(limits, |limits, places| call(limits, places, &mut block));
    // SAFETY: a call sets it to null, or to a block of `malloc` of so many bytes that is now ours.
    let handed = unsafe { Block::of(block) };
    Outcome {
        status,
        places,
        handed,
    }
}
