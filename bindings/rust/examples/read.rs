//! Reads a request or a schema file from standard input, and prints its tree as JSON, or what is wrong with it.
//!
//! ```sh
//! cargo run --example read -- query < FILE
//! ```
use graphql_parser::json::{parse_query, parse_schema, Places};
use graphql_parser::Limits;
use std::io::{self, Read};
use std::process::ExitCode;

fn main() -> Result<ExitCode, Box<dyn std::error::Error>> {
    let read = match std::env::args().nth(1).as_deref() {
        Some("query") => parse_query,
        Some("schema") => parse_schema,
        _ => return Err("usage: read query|schema".into()),
    };
    let mut text = String::new();
    io::stdin().read_to_string(&mut text)?;
    match read(&text, Limits::default(), Places::LeftOut) {
        Ok(tree) => {
            println!("{tree}");
            Ok(ExitCode::SUCCESS)
        }
        Err(error) => {
            println!("{error}");
            println!("{}", error.to_json());
            Ok(ExitCode::FAILURE)
        }
    }
}
