//! The calls on good, refused and too deep texts of both languages, from one thread and from several.
use graphql_parser::json::{self, Places};
use graphql_parser::types::{DocumentOperations, OperationType, Selection};
use graphql_parser::value::Name;
use graphql_parser::{
    check_query, check_schema, explain_query, explain_schema, format_query, format_schema,
    minify_query, minify_schema, parse_query, parse_query_limited, parse_schema,
    parse_schema_limited, Error, Limits, Pos,
};
use std::thread;

const FIELD: &str = r#"{"kind":"Document","definitions":[{"kind":"OperationDefinition","operation":"query","variableDefinitions":[],"directives":[],"selectionSet":{"kind":"SelectionSet","selections":[{"kind":"Field","name":{"kind":"Name","value":"a"},"arguments":[],"directives":[]}]}}]}"#;

const SCALAR: &str = r#"{"kind":"Document","definitions":[{"kind":"ScalarTypeDefinition","line":1,"column":1,"name":{"kind":"Name","line":1,"column":8,"value":"A"},"directives":[]}]}"#;

fn limits(each: usize) -> Limits {
    Limits {
        selections: each,
        values: each,
        types: each,
    }
}

fn pos(line: usize, column: usize) -> Pos {
    Pos { line, column }
}

fn syntax(line: usize, column: usize) -> Error {
    Error::Syntax {
        message: format!("syntax error at {line}:{column}"),
        start: pos(line, column),
        end: None,
    }
}

// A refused text, read within limits of one number each, and why.
struct Refused {
    is_request: bool,
    text: String,
    limit: usize,
    error: Error,
}

fn request(text: &str, limit: usize, error: Error) -> Refused {
    Refused {
        is_request: true,
        text: text.to_owned(),
        limit,
        error,
    }
}

fn schema_file(text: &str, limit: usize, error: Error) -> Refused {
    Refused {
        is_request: false,
        ..request(text, limit, error)
    }
}

fn refused() -> Vec<Refused> {
    let deep = "{a".repeat(66);
    let deep_type = format!("input A{{f:{}", "[".repeat(65));
    let fragments = "fragment F on T{a}{b}fragment F on T{c}";
    let two = Error::MultipleOperations {
        anonymous: pos(1, 1),
        operation: pos(1, 4),
    };
    let operation = Error::OperationDuplicated {
        operation: Name::new("A"),
        first: pos(1, 1),
        second: pos(2, 1),
    };
    let fragment = Error::FragmentDuplicated {
        fragment: Name::new("F"),
        first: pos(1, 1),
        second: pos(1, 22),
    };
    let roots = Error::MultipleRoots {
        root: OperationType::Query,
        schema: pos(1, 1),
        pos: pos(1, 16),
    };
    vec![
        request("{a", 64, syntax(1, 3)),
        request("", 64, syntax(1, 1)),
        request("{é ?}", 64, syntax(1, 2)),
        request(&deep, 64, Error::RecursionLimitExceeded),
        request("{a}query B{b}", 64, two),
        request("query A{a}\nquery A{a}", 64, operation),
        request(fragments, 64, fragment),
        request("fragment F on T{a}", 64, Error::MissingOperation),
        request("{a}", 257, Error::LimitTooLarge),
        schema_file("type", 64, syntax(1, 5)),
        schema_file(&deep_type, 64, Error::RecursionLimitExceeded),
        schema_file("schema{query:A query:B}", 64, roots),
        schema_file(
            "scalar A schema{mutation:M}",
            64,
            Error::MissingQueryRoot { pos: pos(1, 10) },
        ),
        schema_file("scalar A", 257, Error::LimitTooLarge),
    ]
}

// What a check, a parse and a parse into JSON say of a text.
fn errors(row: &Refused) -> [Error; 3] {
    let (text, limits) = (&row.text, limits(row.limit));
    if row.is_request {
        [
            check_query(text, limits).unwrap_err(),
            parse_query_limited(text, limits).unwrap_err(),
            json::parse_query(text, limits, Places::LeftOut).unwrap_err(),
        ]
    } else {
        [
            check_schema(text, limits).unwrap_err(),
            parse_schema_limited(text, limits).unwrap_err(),
            json::parse_schema(text, limits, Places::LeftOut).unwrap_err(),
        ]
    }
}

fn refuses_each() {
    for row in refused() {
        for error in errors(&row) {
            assert_eq!(error, row.error, "{}", row.text);
        }
    }
}

#[test]
fn each_error_has_its_kind_and_its_places() {
    refuses_each();
}

// What an explanation says of a text.
fn explained(row: &Refused) -> Result<Option<String>, Error> {
    let (text, limits) = (&row.text, limits(row.limit));
    if row.is_request {
        explain_query(text, limits)
    } else {
        explain_schema(text, limits)
    }
}

#[test]
fn each_refused_text_is_explained() {
    for row in refused() {
        match (explained(&row), &row.error) {
            (Err(error), Error::LimitTooLarge) => assert_eq!(error, Error::LimitTooLarge),
            (Ok(Some(report)), error) => {
                // A syntax error is told with its place, in other words than the error's, and so is the place of a limit.
                let begins = match error {
                    Error::Syntax { start, .. } => format!("{start}: syntax error: "),
                    Error::RecursionLimitExceeded => "1:".to_owned(),
                    error => match error.positions().next() {
                        Some(place) => format!("{place}: {error}"),
                        None => format!("{error}"),
                    },
                };
                assert!(report.starts_with(&begins), "{report}");
                assert!(report.ends_with('\n'), "{report}");
            }
            (other, _) => panic!("{}: {other:?}", row.text),
        }
    }
    assert_eq!(explain_query("{a}", limits(0)), Ok(None));
    assert_eq!(explain_schema("scalar A", Limits::default()), Ok(None));
    let report = explain_schema("type A { b: }", Limits::default()).unwrap();
    let lines = concat!(
        "1:13: syntax error: found \"}\", expected a name or \"[\"\n",
        " 1 | type A { b: }\n",
        "   |             ^\n"
    );
    assert_eq!(report.as_deref(), Some(lines));
}

#[test]
fn a_text_is_written_anew() {
    let (query, schema) = (
        "query A { b(c: [1 -2]) } # d",
        "\"e\" scalar F, type G { h: I! }",
    );
    assert_eq!(
        minify_query(query, Limits::default()),
        Ok("query A{b(c:[1-2])}".to_owned())
    );
    assert_eq!(
        format_query(query, Limits::default()),
        Ok("query A {\n  b(c: [1, -2])\n} # d".to_owned())
    );
    assert_eq!(
        minify_schema(schema, Limits::default()),
        Ok("\"e\"scalar F type G{h:I!}".to_owned())
    );
    assert_eq!(
        format_schema(schema, Limits::default()),
        Ok("\"e\"\nscalar F\n\ntype G {\n  h: I!\n}".to_owned())
    );
    let described = "type A{\"\"\"\n    b\n    c\n\"\"\" d:E}";
    assert_eq!(
        minify_schema(described, Limits::default()),
        Ok("type A{\"\"\"b\nc\"\"\"d:E}".to_owned())
    );
    assert_eq!(
        format_schema(described, Limits::default()),
        Ok("type A {\n  \"\"\"\n  b\n  c\n  \"\"\"\n  d: E\n}".to_owned())
    );
    // Errors are those of a check.
    for row in refused() {
        let (text, limits) = (&row.text, limits(row.limit));
        let (minified, formatted) = if row.is_request {
            (minify_query(text, limits), format_query(text, limits))
        } else {
            (minify_schema(text, limits), format_schema(text, limits))
        };
        assert_eq!(minified.as_ref(), Err(&row.error), "{text}");
        assert_eq!(formatted.as_ref(), Err(&row.error), "{text}");
    }
}

#[test]
fn an_accepted_text_gives_its_tree() {
    assert!(check_query("{a}", Limits::default()).is_ok());
    assert!(check_query("{a".repeat(66), limits(65)).is_err_and(|e| e == syntax(1, 133)));
    assert!(check_schema("scalar A", limits(0)).is_ok());
    let tree = parse_query(String::from("query A{a}")).unwrap();
    assert!(matches!(&tree.operations, DocumentOperations::Multiple(map) if map.contains_key("A")));
    assert_eq!(
        parse_schema("scalar A scalar B").unwrap().definitions.len(),
        2
    );
}

#[test]
fn a_type_condition_stands_at_its_keyword() {
    let tree = parse_query("{...on T{a}} fragment F on U{a}").unwrap();
    let (_, operation) = tree.operations.iter().next().unwrap();
    let Selection::InlineFragment(inline) = &operation.node.selection_set.node.items[0].node else {
        panic!("an inline fragment");
    };
    let conditions = [
        inline.node.type_condition.as_ref().unwrap(),
        &tree.fragments["F"].node.type_condition,
    ];
    let places = conditions.map(|condition| (condition.pos, condition.node.on.pos));
    assert_eq!(places, [(pos(1, 5), pos(1, 8)), (pos(1, 25), pos(1, 28))]);
}

#[test]
fn an_accepted_text_gives_its_json() {
    let tree = json::parse_query("{a}", limits(0), Places::LeftOut).unwrap();
    assert_eq!(&*tree, FIELD);
    let tree = json::parse_schema("scalar A", Limits::default(), Places::Written).unwrap();
    assert_eq!(tree.as_str(), SCALAR);
    assert_eq!(tree.to_string(), SCALAR);
    assert_eq!(tree.as_ref(), SCALAR);
    assert_eq!(format!("{tree:?}"), format!("{SCALAR:?}"));
    assert_eq!(String::from(tree), SCALAR);
}

#[test]
fn a_character_of_number_0_has_its_escape() {
    let text = "{a(b:\"\\u0000c\")}";
    let tree = json::parse_query(text, Limits::default(), Places::LeftOut).unwrap();
    assert!(tree.contains(r#""value":{"kind":"StringValue","value":"\u0000c"}"#));
    assert!(tree.ends_with('}'));
}

// A refused request, its message, and the locations in its JSON.
const SHOWN: [(&str, &str, &str); 5] = [
    ("{a", "syntax error at 1:3", r#"[{"line":1,"column":3}]"#),
    (
        "{a}query B{b}",
        "document contains multiple operations",
        r#"[{"line":1,"column":1},{"line":1,"column":4}]"#,
    ),
    (
        "query A{a}\nquery A{a}",
        "operation A is defined twice",
        r#"[{"line":2,"column":1},{"line":1,"column":1}]"#,
    ),
    (
        "fragment F on T{a}{b}fragment F on T{c}",
        "fragment F is defined twice",
        r#"[{"line":1,"column":22},{"line":1,"column":1}]"#,
    ),
    (
        "fragment F on T{a}",
        "document does not contain an operation",
        "",
    ),
];

#[test]
fn an_error_is_shown_as_its_message() {
    for (text, message, locations) in SHOWN {
        let error = parse_query(text).unwrap_err();
        assert_eq!(error.to_string(), message);
        let json = match locations {
            "" => format!("{{\"message\":\"{message}\"}}"),
            _ => format!("{{\"message\":\"{message}\",\"locations\":{locations}}}"),
        };
        assert_eq!(error.to_json(), json);
    }
    let error = parse_schema("schema{query:A query:B}").unwrap_err();
    assert_eq!(
        error.to_string(),
        "multiple query roots in schema definition"
    );
}

#[test]
fn the_library_has_the_version_of_the_crate() {
    let (major, minor, patch) = graphql_parser::version();
    assert_eq!(
        format!("{major}.{minor}.{patch}"),
        env!("CARGO_PKG_VERSION")
    );
}

#[test]
fn several_threads_may_call_at_once() {
    let json = json::parse_query("{a}", Limits::default(), Places::LeftOut).unwrap();
    let tree = parse_query("{a}").unwrap();
    thread::scope(|scope| {
        for _ in 0..4 {
            scope.spawn(|| {
                for _ in 0..50 {
                    refuses_each();
                    assert_eq!(json.as_str(), FIELD);
                    assert_eq!(tree.operations.iter().len(), 1);
                }
            });
        }
    });
    thread::spawn(move || assert_eq!(json.as_str(), FIELD))
        .join()
        .unwrap();
}
