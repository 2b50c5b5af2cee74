//! Measures how fast a text is parsed, beside the call of the library that it uses.
//!
//! ```sh
//! cargo run --release --example speed -- query|schema < FILE
//! ```
//!
//! Prints megabytes of the text a second, of the fastest round: of a parse, whose tree is dropped, and of the library's
//! calls alone, which write the tree's JSON or check the text.
use graphql_parser::json::{self, Json, Places};
use graphql_parser::{check_query, check_schema, parse_query, parse_schema, Limits, Result};
use std::io::{self, Read};
use std::time::{Duration, Instant};

// So many bytes are read in all by each call, and the text 15 times at least.
const BYTES: usize = 30_000_000;

type ToJson = fn(&str, Limits, Places) -> Result<Json>;

fn main() -> std::result::Result<(), Box<dyn std::error::Error>> {
    let kind = std::env::args().nth(1).unwrap_or_default();
    let mut text = String::new();
    io::stdin().read_to_string(&mut text)?;
    let limits = Limits::default();
    let (parse, check, to_json): (fn(&str) -> bool, fn(&str) -> bool, ToJson) = match kind.as_str()
    {
        "query" => (
            |text| parse_query(text).is_ok(),
            |text| check_query(text, Limits::default()).is_ok(),
            json::parse_query,
        ),
        "schema" => (
            |text| parse_schema(text).is_ok(),
            |text| check_schema(text, Limits::default()).is_ok(),
            json::parse_schema,
        ),
        _ => return Err("usage: speed query|schema".into()),
    };
    let length = to_json(&text, limits, Places::Written)?.len();
    println!("parse {:.1}", speed(&text, parse));
    println!(
        "json with places {:.1}",
        speed(&text, |text| to_json(text, limits, Places::Written).is_ok())
    );
    println!(
        "json {:.1}",
        speed(&text, |text| to_json(text, limits, Places::LeftOut).is_ok())
    );
    println!("check {:.1}", speed(&text, check));
    println!(
        "bytes of json with places to one of text {:.1}",
        length as f64 / text.len() as f64
    );
    Ok(())
}

// Megabytes a second of the fastest call.
fn speed(text: &str, call: impl Fn(&str) -> bool) -> f64 {
    let mut best = Duration::MAX;
    for _ in 0..(BYTES / text.len().max(1)).max(15) {
        let start = Instant::now();
        assert!(call(text), "the text is refused");
        best = best.min(start.elapsed());
    }
    text.len() as f64 / 1e6 / best.as_secs_f64()
}
