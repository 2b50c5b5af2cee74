//! Trees, held against the JSON of the same texts, which is read out of the library and printed out of the trees.
mod support;

use graphql_parser::json::{self, Json, Places};
use graphql_parser::{
    check_query, check_schema, parse_query_limited, parse_schema_limited, Limits, Result,
};
use std::thread;
use support::{printer, random, tables};

// How many texts were accepted and refused.
#[derive(Default)]
struct Tally {
    accepted: usize,
    refused: usize,
}

impl Tally {
    fn count<T>(&mut self, answer: &Result<T>) {
        match answer {
            Ok(_) => self.accepted += 1,
            Err(_) => self.refused += 1,
        }
    }
}

const LARGEST: Limits = Limits {
    selections: Limits::LARGEST,
    values: Limits::LARGEST,
    types: Limits::LARGEST,
};

// What the calls give of a text: the definitions of its tree, as JSON, are those of the library's JSON.
fn compare<T>(
    text: &str,
    check: Result<()>,
    tree: Result<T>,
    json: Result<Json>,
    tally: &mut Tally,
    definitions: impl FnOnce(&T, &str) -> Vec<String>,
) {
    tally.count(&tree);
    assert_eq!(check.err(), json.as_ref().err().cloned(), "{text}");
    match (tree, json) {
        (Ok(tree), Ok(json)) => {
            let definitions = definitions(&tree, &json);
            assert_eq!(printer::document(&definitions), &*json, "{text}");
        }
        (tree, json) => assert_eq!(tree.err(), json.err(), "{text}"),
    }
}

// A text, read as a request. After a carriage return alone the places are not in the order of the text, and there the
// definitions are held against each other in any order.
fn compare_request(text: &str, limits: Limits, tally: &mut Tally) {
    let check = check_query(text, limits);
    let tree = parse_query_limited(text, limits);
    let json = json::parse_query(text, limits, Places::Written);
    compare(text, check, tree, json, tally, |tree, json| {
        let definitions = printer::request_definitions(tree);
        if text.replace("\r\n", "\n").contains('\r') {
            return in_order_of(json, definitions);
        }
        definitions
    });
}

// The same definitions, in the order in which they stand in a text.
fn in_order_of(json: &str, mut definitions: Vec<String>) -> Vec<String> {
    let mut ordered = Vec::new();
    let mut rest = &json[printer::document(&[]).len() - 2..];
    while let Some(next) = definitions.iter().position(|text| rest.starts_with(text)) {
        let definition = definitions.swap_remove(next);
        rest = rest[definition.len()..].trim_start_matches(',');
        ordered.push(definition);
    }
    ordered
}

// A text, read as a schema file.
fn compare_schema_file(text: &str, limits: Limits, tally: &mut Tally) {
    let check = check_schema(text, limits);
    let tree = parse_schema_limited(text, limits);
    let json = json::parse_schema(text, limits, Places::Written);
    compare(text, check, tree, json, tally, |tree, _| {
        printer::schema_definitions(tree)
    });
}

#[test]
fn the_texts_of_the_tables_have_the_trees_of_their_json() {
    let (mut requests, mut schema_files) = (Tally::default(), Tally::default());
    for text in tables::texts() {
        for limits in [Limits::default(), LARGEST] {
            compare_request(&text, limits, &mut requests);
            compare_schema_file(&text, limits, &mut schema_files);
        }
    }
    assert!(
        requests.accepted > 600 && requests.refused > 600,
        "{}, {}",
        requests.accepted,
        requests.refused
    );
    assert!(
        schema_files.accepted > 300 && schema_files.refused > 300,
        "{}, {}",
        schema_files.accepted,
        schema_files.refused
    );
}

#[test]
fn random_texts_have_the_trees_of_their_json() {
    let (mut requests, mut schema_files) = (Tally::default(), Tally::default());
    random::texts(20211001, 50_000, |text, is_request| {
        if is_request {
            compare_request(text, Limits::default(), &mut requests);
        } else {
            compare_schema_file(text, Limits::default(), &mut schema_files);
        }
    });
    assert!(
        requests.accepted > 25_000,
        "{}, {}",
        requests.accepted,
        requests.refused
    );
    assert!(
        schema_files.accepted > 25_000,
        "{}, {}",
        schema_files.accepted,
        schema_files.refused
    );
}

// Has a text that nests as deep as the limits allow read, compared and dropped on the stack that a thread has by default.
fn on_a_small_stack(text: String, compare: fn(&str, Limits, &mut Tally)) {
    let compared = thread::Builder::new().stack_size(2 << 20).spawn(move || {
        let mut tally = Tally::default();
        compare(&text, LARGEST, &mut tally);
        assert_eq!((tally.accepted, tally.refused), (1, 0));
    });
    compared.unwrap().join().unwrap();
}

// A value that nests as deep as the limits allow, and a type that does.
fn deep_value() -> String {
    format!("{}1{}", "[{a:".repeat(128), "}]".repeat(128))
}

fn deep_type() -> String {
    format!("{}T{}", "[".repeat(256), "]!".repeat(256))
}

#[test]
fn a_request_may_nest_as_deep_as_the_limits_allow() {
    let (value, ty) = (deep_value(), deep_type());
    for selection in ["a", "...", "...on T", "a:b(c:[$v])@d(e:1)"] {
        let before = format!("{{{selection}").repeat(256);
        let inside = format!("{{a(b:{value})@c(d:{value})}}");
        let text = format!(
            "query($v:{ty}={value}@d(e:{value})){before}{inside}{}",
            "}".repeat(256)
        );
        on_a_small_stack(text, compare_request);
    }
}

#[test]
fn a_schema_file_may_nest_as_deep_as_the_limits_allow() {
    let (value, ty) = (deep_value(), deep_type());
    let text = format!("type A{{b(c:{ty}={value}@d(e:{value})):{ty}@d(e:{value})}}");
    on_a_small_stack(text, compare_schema_file);
}

#[test]
fn a_long_string_a_long_name_and_many_escapes_are_read() {
    let long = "é".repeat(5000);
    let name = "a".repeat(5000);
    let escapes = r#"\"\\\/\b\f\n\r\t\u0001\u001f\u00e9"#.repeat(500);
    let mut tally = Tally::default();
    for length in 0..40 {
        let (name, plain) = (&name[..length + 1], "x".repeat(length));
        let text =
            format!("{{{name}(b:\"{plain}\" c:\"{plain}\\n\" d:[\"\\t{plain}\\\\\" 1e{length}])}}");
        compare_request(&text, Limits::default(), &mut tally);
    }
    let text = format!("query {name}($v:T=\"{long}{escapes}{long}\"){{{name}}}");
    compare_request(&text, Limits::default(), &mut tally);
    let text = format!("\"{escapes}\" type {name}{{\"\"\"{long}\"\"\" {name}:T}}");
    compare_schema_file(&text, Limits::default(), &mut tally);
    assert_eq!((tally.accepted, tally.refused), (42, 0));
}
