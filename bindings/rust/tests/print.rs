//! Trees as texts: as GraphQL.js and the library print them, and so that a parse gives them again.
mod support;

use graphql_parser::json::{self, Places};
use graphql_parser::types::{
    DirectiveDefinition, DocumentOperations, ExecutableDocument, Field, FragmentSpread,
    InlineFragment, InputValueDefinition, ObjectType, OperationDefinition, SchemaDefinition,
    Selection, ServiceDocument, Type, TypeDefinition, TypeKind, TypeSystemDefinition,
};
use graphql_parser::value::{ConstValue, Name, Value};
use graphql_parser::{
    format_query, format_schema, parse_query, parse_query_limited, parse_schema,
    parse_schema_limited, print_query, print_schema, Error, Limits, Positioned, Result,
};
use std::thread;
use support::{random, tables};

const LARGEST: Limits = Limits {
    selections: Limits::LARGEST,
    values: Limits::LARGEST,
    types: Limits::LARGEST,
};

fn printed_request(text: &str) -> String {
    print_query(&parse_query(text).unwrap()).unwrap()
}

fn printed_schema_file(text: &str) -> String {
    print_schema(&parse_schema(text).unwrap()).unwrap()
}

// Requests, and what GraphQL.js 16 prints of them.
const REQUESTS: [(&str, &str); 20] = [
    ("query{a}", "{\n  a\n}"),
    ("query A{a,b:c}", "query A {\n  a\n  b: c\n}"),
    ("query($a:A){a}", "query ($a: A) {\n  a\n}"),
    ("query@a{b}", "query @a {\n  b\n}"),
    ("mutation{a}", "mutation {\n  a\n}"),
    ("subscription A@b(c:$d){e}", "subscription A @b(c: $d) {\n  e\n}"),
    (
        "query A($a:[Int!]!=[1 2]@b(c:D),$e:[[F]!]={g:{h:\"i\"}}){j}",
        "query A($a: [Int!]! = [1, 2] @b(c: D), $e: [[F]!] = {g: {h: \"i\"}}) {\n  j\n}",
    ),
    ("{a(b:null c:true d:false e:F g:$h)}", "{\n  a(b: null, c: true, d: false, e: F, g: $h)\n}"),
    ("{a(b:[[],[$c]],d:{},e:{f:$g,h:[I]})}", "{\n  a(b: [[], [$c]], d: {}, e: {f: $g, h: [I]})\n}"),
    ("{a(b:-0 c:1.50 d:-2E+3 e:4e-5 f:0.0)}", "{\n  a(b: -0, c: 1.50, d: -2E+3, e: 4e-5, f: 0.0)\n}"),
    ("{a(b:\"\" c:\"\\u00e9\\/\\\"\\\\\\b\\f\\n\\r\\t\")}", "{\n  a(b: \"\", c: \"é/\\\"\\\\\\b\\f\\n\\r\\t\")\n}"),
    ("{a@b@c(d:1){e@f{g}}}", "{\n  a @b @c(d: 1) {\n    e @f {\n      g\n    }\n  }\n}"),
    (
        "{a{...B@c...on D@e{f}...@g{h}...{i}...on on{j}}}fragment B on D{k}",
        "{\n  a {\n    ...B @c\n    ... on D @e {\n      f\n    }\n    ... @g {\n      h\n    }\n    ... {\n      i\n    }\n    ... on on {\n      j\n    }\n  }\n}\n\nfragment B on D {\n  k\n}",
    ),
    (
        "fragment A on B@c{d}query E{...A}fragment F on G{h}query I{...F}",
        "fragment A on B @c {\n  d\n}\n\nquery E {\n  ...A\n}\n\nfragment F on G {\n  h\n}\n\nquery I {\n  ...F\n}",
    ),
    (
        "{on(on:on)true:false{null}query mutation subscription fragment}",
        "{\n  on(on: on)\n  true: false {\n    null\n  }\n  query\n  mutation\n  subscription\n  fragment\n}",
    ),
    // 80 and 81 columns.
    (
        "{aaaaaaaaaaaaaaaa(bbbbbbbbbbbbbbbb:cccccccccccc,dddddddddddddddd:eeeeeeeeeeee)}",
        "{\n  aaaaaaaaaaaaaaaa(bbbbbbbbbbbbbbbb: cccccccccccc, dddddddddddddddd: eeeeeeeeeeee)\n}",
    ),
    (
        "{aaaaaaaaaaaaaaaa(bbbbbbbbbbbbbbbb:cccccccccccc,dddddddddddddddd:eeeeeeeeeeeee)}",
        "{\n  aaaaaaaaaaaaaaaa(\n    bbbbbbbbbbbbbbbb: cccccccccccc\n    dddddddddddddddd: eeeeeeeeeeeee\n  )\n}",
    ),
    (
        "{a:aaaaaaaaaaaaaaaa(bbbbbbbbbbbbbbbb:cccccccccccccccc,dddddddddddddddd:[eeeeeeeeeeeeeeee])@f{g}}",
        "{\n  a: aaaaaaaaaaaaaaaa(\n    bbbbbbbbbbbbbbbb: cccccccccccccccc\n    dddddddddddddddd: [eeeeeeeeeeeeeeee]\n  ) @f {\n    g\n  }\n}",
    ),
    ("\u{feff}#a\n{b#c\n}#d", "{\n  b\n}"),
    ("{a a:a a}", "{\n  a\n  a: a\n  a\n}"),
];

// Schema files, and what GraphQL.js 16 prints of them.
const SCHEMA_FILES: [(&str, &str); 34] = [
    ("schema{query:A}", "schema {\n  query: A\n}"),
    (
        "\"\"\"a\"\"\"schema@b(c:{d:[1,2.5e3,\"e\",F,true,null]}){mutation:G query:H subscription:I}",
        "\"\"\"a\"\"\"\nschema @b(c: {d: [1, 2.5e3, \"e\", F, true, null]}) {\n  mutation: G\n  query: H\n  subscription: I\n}",
    ),
    ("extend schema@a@b", "extend schema @a @b"),
    ("extend schema@a{subscription:B}", "extend schema @a {\n  subscription: B\n}"),
    ("scalar A", "scalar A"),
    ("scalar A@b extend scalar A@c", "scalar A @b\n\nextend scalar A @c"),
    ("type A", "type A"),
    ("type A implements B&C@d{e:F}", "type A implements B & C @d {\n  e: F\n}"),
    ("type A implements&B", "type A implements B"),
    (
        "type A{b(c:D=1@e f:[G!]!):[H]!@i j:K}",
        "type A {\n  b(c: D = 1 @e, f: [G!]!): [H]! @i\n  j: K\n}",
    ),
    ("extend type A implements B", "extend type A implements B"),
    ("extend type A@b{c:D}", "extend type A @b {\n  c: D\n}"),
    ("interface A", "interface A"),
    ("interface A implements B{c:D}", "interface A implements B {\n  c: D\n}"),
    ("extend interface A implements B&C@d", "extend interface A implements B & C @d"),
    ("union A", "union A"),
    ("union A@b=|C|D", "union A @b = C | D"),
    ("extend union A=B", "extend union A = B"),
    ("enum A", "enum A"),
    ("enum A@b{C D@e}", "enum A @b {\n  C\n  D @e\n}"),
    ("extend enum A{B}", "extend enum A {\n  B\n}"),
    ("input A", "input A"),
    ("input A@b{c:D={e:F}@g}", "input A @b {\n  c: D = {e: F} @g\n}"),
    ("extend input A@b", "extend input A @b"),
    ("directive@a on|QUERY|FIELD", "directive @a on QUERY | FIELD"),
    (
        "directive@a(b:C=1@d,e:F)repeatable on ENUM_VALUE",
        "directive @a(b: C = 1 @d, e: F) repeatable on ENUM_VALUE",
    ),
    (
        "directive@a on QUERY|MUTATION|SUBSCRIPTION|FIELD|FRAGMENT_DEFINITION|FRAGMENT_SPREAD|INLINE_FRAGMENT|VARIABLE_DEFINITION|SCHEMA|SCALAR|OBJECT|FIELD_DEFINITION|ARGUMENT_DEFINITION|INTERFACE|UNION|ENUM|ENUM_VALUE|INPUT_OBJECT|INPUT_FIELD_DEFINITION",
        "directive @a on QUERY | MUTATION | SUBSCRIPTION | FIELD | FRAGMENT_DEFINITION | FRAGMENT_SPREAD | INLINE_FRAGMENT | VARIABLE_DEFINITION | SCHEMA | SCALAR | OBJECT | FIELD_DEFINITION | ARGUMENT_DEFINITION | INTERFACE | UNION | ENUM | ENUM_VALUE | INPUT_OBJECT | INPUT_FIELD_DEFINITION",
    ),
    (
        "\"\"\"a\"\"\"type B{\"\"\"c\"\"\"d(\"\"\"e\"\"\"f:G h:I):J}",
        "\"\"\"a\"\"\"\ntype B {\n  \"\"\"c\"\"\"\n  d(\n    \"\"\"e\"\"\"\n    f: G\n    h: I\n  ): J\n}",
    ),
    (
        "\"\"\"\n  a\n\n    b \"\"c\"\"\n\"\"\"enum D{\"\"\"\ne\nf\\\n\"\"\"G}",
        "\"\"\"\na\n\n  b \"\"c\"\"\n\"\"\"\nenum D {\n  \"\"\"\n  e\n  f\\\n  \"\"\"\n  G\n}",
    ),
    (
        "\"\"\"  a\"\"\"input B{\"\"\"\\\"\"\"c\\\"\"\"\"\"\"d:E}",
        "\"\"\"  a\"\"\"\ninput B {\n  \"\"\"\n  \\\"\"\"c\\\"\"\"\n  \"\"\"\n  d: E\n}",
    ),
    (
        "\"\"\"\na\n\"b\"\n\"\"\"directive@c(\"\"\" d\\\n\"\"\"e:F)on ENUM",
        "\"\"\"\na\n\"b\"\n\"\"\"\ndirective @c(\n  \"\"\" d\\\n  \"\"\"\n  e: F\n) on ENUM",
    ),
    // In these a block string would have another value.
    ("\"\"scalar A", "\"\"\nscalar A"),
    ("\" \"scalar A", "\" \"\nscalar A"),
    ("\"\\ta\\n b\\r\"scalar A", "\"\\ta\\n b\\r\"\nscalar A"),
];

#[test]
fn trees_are_printed_as_graphql_js_prints_them() {
    for (text, expected) in REQUESTS {
        assert_eq!(printed_request(text), expected, "{text}");
    }
    for (text, expected) in SCHEMA_FILES {
        assert_eq!(printed_schema_file(text), expected, "{text}");
    }
    // A description becomes a block string where it may, and of a field that an object has twice the last value is left.
    assert_eq!(
        printed_schema_file("\"a\\nb\"scalar C"),
        "\"\"\"\na\nb\n\"\"\"\nscalar C"
    );
    assert_eq!(
        printed_request("{a(b:\"\"\"c\"\"\",d:{e:1,f:2,e:3})}"),
        "{\n  a(b: \"c\", d: {e: 3, f: 2})\n}"
    );
}

#[test]
fn trees_are_printed_as_the_library_prints_them() {
    let requests = tables::answers("printed.rows", "printed query");
    let schema_files = tables::answers("printed.rows", "printed schema");
    assert!(requests.len() >= 12 && schema_files.len() >= 32);
    for (text, expected) in requests {
        assert_eq!(printed_request(&text), expected, "{text}");
    }
    for (text, expected) in schema_files {
        assert_eq!(printed_schema_file(&text), expected, "{text}");
    }
}

// What is printed of a request is formatted already, and has its tree. Whether the text is a request.
fn request_comes_back(text: &str) -> bool {
    let Ok(document) = parse_query_limited(text, LARGEST) else {
        return false;
    };
    let printed = print_query(&document).unwrap();
    let json = |text: &str| json::parse_query(text, LARGEST, Places::LeftOut).unwrap();
    assert_eq!(json(&printed).as_str(), json(text).as_str(), "{text}");
    assert_eq!(format_query(&printed, LARGEST).unwrap(), printed, "{text}");
    let again = parse_query_limited(&printed, LARGEST).unwrap();
    assert_eq!(print_query(&again).unwrap(), printed, "{text}");
    true
}

// The same of a schema file.
fn schema_file_comes_back(text: &str) -> bool {
    let Ok(document) = parse_schema_limited(text, LARGEST) else {
        return false;
    };
    let printed = print_schema(&document).unwrap();
    let json = |text: &str| json::parse_schema(text, LARGEST, Places::LeftOut).unwrap();
    assert_eq!(json(&printed).as_str(), json(text).as_str(), "{text}");
    assert_eq!(format_schema(&printed, LARGEST).unwrap(), printed, "{text}");
    let again = parse_schema_limited(&printed, LARGEST).unwrap();
    assert_eq!(print_schema(&again).unwrap(), printed, "{text}");
    true
}

// A text whose definitions stand in the order of their places: after a carriage return alone they need not.
fn in_order(text: &str) -> String {
    text.replace("\r\n", "\n").replace('\r', "\n")
}

#[test]
fn the_texts_of_the_tables_come_back() {
    let texts = tables::texts();
    let texts: Vec<String> = texts.iter().map(|text| in_order(text)).collect();
    let requests = texts.iter().filter(|text| request_comes_back(text)).count();
    let schema_files = texts
        .iter()
        .filter(|text| schema_file_comes_back(text))
        .count();
    assert!(
        requests > 300 && schema_files > 150,
        "{requests}, {schema_files}"
    );
}

#[test]
fn random_texts_come_back() {
    let (mut requests, mut schema_files) = (0, 0);
    random::texts(20211002, 20_000, |text, is_request| {
        let text = in_order(text);
        if is_request {
            requests += usize::from(request_comes_back(&text));
        } else {
            schema_files += usize::from(schema_file_comes_back(&text));
        }
    });
    assert!(
        requests > 10_000 && schema_files > 10_000,
        "{requests}, {schema_files}"
    );
}

// A tree whose places are all 0:0, as that of a program that makes requests.
#[test]
fn definitions_of_one_place_stand_in_the_order_of_their_names() {
    let mut document =
        parse_query("query B{b}query A{a}fragment D on T{d}fragment C on T{c}").unwrap();
    let DocumentOperations::Multiple(operations) = &mut document.operations else {
        panic!("names");
    };
    for operation in operations.values_mut() {
        operation.pos = (0, 0).into();
    }
    for fragment in document.fragments.values_mut() {
        fragment.pos = (0, 0).into();
    }
    let printed = "query A {\n  a\n}\n\nquery B {\n  b\n}\n\nfragment C on T {\n  c\n}\n\nfragment D on T {\n  d\n}";
    assert_eq!(print_query(&document).unwrap(), printed);
}

// The parts of the request below.
const REQUEST: &str = "query($a:[B]=c){d:e(f:[g,{h:$i}])@j ...K ...on L{m}}fragment K on L{n}";

fn operation(document: &mut ExecutableDocument) -> &mut OperationDefinition {
    match &mut document.operations {
        DocumentOperations::Single(operation) => &mut operation.node,
        DocumentOperations::Multiple(_) => panic!("no name"),
    }
}

fn selection(document: &mut ExecutableDocument, index: usize) -> &mut Selection {
    &mut operation(document).selection_set.node.items[index].node
}

fn field(document: &mut ExecutableDocument) -> &mut Field {
    match selection(document, 0) {
        Selection::Field(field) => &mut field.node,
        _ => panic!("a field"),
    }
}

fn spread(document: &mut ExecutableDocument) -> &mut FragmentSpread {
    match selection(document, 1) {
        Selection::FragmentSpread(spread) => &mut spread.node,
        _ => panic!("a spread"),
    }
}

fn inline(document: &mut ExecutableDocument) -> &mut InlineFragment {
    match selection(document, 2) {
        Selection::InlineFragment(fragment) => &mut fragment.node,
        _ => panic!("an inline fragment"),
    }
}

fn items(document: &mut ExecutableDocument) -> &mut Vec<Value> {
    match &mut field(document).arguments[0].1.node {
        Value::List(items) => items,
        _ => panic!("a list"),
    }
}

fn rename(document: &mut ExecutableDocument, name: &str) {
    let operation = Positioned::new(operation(document).clone(), (1, 1).into());
    document.operations = DocumentOperations::Multiple([(Name::new(name), operation)].into());
}

fn rename_fragment(document: &mut ExecutableDocument, name: &str) {
    let fragment = document.fragments.remove("K").unwrap();
    document.fragments.insert(Name::new(name), fragment);
}

type Change<T> = fn(&mut T, &str);

// Each puts a name into a request.
const NAMES: [Change<ExecutableDocument>; 15] = [
    rename,
    rename_fragment,
    |document, name| operation(document).variable_definitions[0].node.name.node = Name::new(name),
    |document, name| {
        let ty = &mut operation(document).variable_definitions[0]
            .node
            .var_type
            .node;
        *ty = Type::new(name).unwrap();
    },
    |document, name| {
        let value = &mut operation(document).variable_definitions[0]
            .node
            .default_value;
        value.as_mut().unwrap().node = ConstValue::Enum(Name::new(name));
    },
    |document, name| field(document).alias.as_mut().unwrap().node = Name::new(name),
    |document, name| field(document).name.node = Name::new(name),
    |document, name| field(document).arguments[0].0.node = Name::new(name),
    |document, name| field(document).directives[0].node.name.node = Name::new(name),
    |document, name| items(document)[0] = Value::Enum(Name::new(name)),
    |document, name| items(document)[0] = Value::Variable(Name::new(name)),
    |document, name| {
        items(document)[1] = Value::Object([(Name::new(name), Value::Null)].into_iter().collect());
    },
    |document, name| spread(document).fragment_name.node = Name::new(name),
    |document, name| {
        let condition = inline(document).type_condition.as_mut().unwrap();
        condition.node.on.node = Name::new(name);
    },
    |document, name| {
        let fragment = document.fragments.get_mut("K").unwrap();
        fragment.node.type_condition.node.on.node = Name::new(name);
    },
];

fn is_syntax<T>(result: Result<T>) -> bool {
    matches!(result, Err(Error::Syntax { .. }))
}

// Invalid names, some of which would make other trees.
const NO_NAMES: [&str; 12] = [
    "", " ", "a b", "a:b", "a{b}", "a#", "é", "1", "-1", "$a", "\"a\"", "a\n",
];

#[test]
fn a_request_with_an_invalid_name_is_refused() {
    for (index, change) in NAMES.iter().enumerate() {
        for name in NO_NAMES {
            let mut document = parse_query(REQUEST).unwrap();
            change(&mut document, name);
            assert!(is_syntax(print_query(&document)), "{index}: {name:?}");
        }
        let mut document = parse_query(REQUEST).unwrap();
        change(&mut document, "__type_1");
        let printed = print_query(&document).unwrap();
        assert!(printed.contains("__type_1"), "{printed}");
        assert!(request_comes_back(&printed), "{printed}");
    }
}

// What no request has, and its errors.
#[test]
fn a_tree_that_no_request_has_is_refused() {
    let changes: [Change<ExecutableDocument>; 9] = [
        rename_fragment,
        |document, on| spread(document).fragment_name.node = Name::new(on),
        |document, _| items(document)[0] = Value::Enum(Name::new("true")),
        |document, _| items(document)[0] = Value::Enum(Name::new("false")),
        |document, _| items(document)[0] = Value::Enum(Name::new("null")),
        |document, _| operation(document).selection_set.node.items.clear(),
        |document, _| inline(document).selection_set.node.items.clear(),
        |document, _| {
            // It would be a spread of the field after it.
            inline(document).type_condition = None;
            inline(document).selection_set.node.items.clear();
            let field = selection(document, 0).clone();
            let items = &mut operation(document).selection_set.node.items;
            items.push(Positioned::new(field, (0, 0).into()));
        },
        |document, _| {
            let fragment = document.fragments.get_mut("K").unwrap();
            fragment.node.selection_set.node.items.clear();
        },
    ];
    for (index, change) in changes.iter().enumerate() {
        let mut document = parse_query(REQUEST).unwrap();
        change(&mut document, "on");
        assert!(is_syntax(print_query(&document)), "{index}");
    }
    let mut document = parse_query(REQUEST).unwrap();
    document.operations = DocumentOperations::Multiple([].into());
    assert_eq!(print_query(&document), Err(Error::MissingOperation));
    document.fragments.clear();
    assert!(is_syntax(print_query(&document)));
}

#[test]
fn a_tree_that_nests_deeper_than_the_limits_is_refused() {
    let too_deep = Err(Error::RecursionLimitExceeded);
    let deep = "{a".repeat(257) + &"}".repeat(257);
    let mut document = parse_query_limited(deep, LARGEST).unwrap();
    assert!(print_query(&document).is_ok());
    field(&mut document).selection_set = operation(&mut document).selection_set.clone();
    assert_eq!(print_query(&document), too_deep);
    let mut document = parse_query(REQUEST).unwrap();
    let mut value = Value::Null;
    for _ in 0..=Limits::LARGEST {
        value = vec![value].into();
    }
    field(&mut document).arguments[0].1.node = value;
    assert_eq!(print_query(&document), too_deep);
    let mut document = parse_query(REQUEST).unwrap();
    let deep = "[".repeat(257) + "T" + &"]".repeat(257);
    operation(&mut document).variable_definitions[0]
        .node
        .var_type
        .node = Type::new(&deep).unwrap();
    assert_eq!(print_query(&document), too_deep);
}

// The parts of the schema file below.
const SCHEMA_FILE: &str =
    "schema{query:A}type B implements C{d(e:F=G@h):I}union J=K enum L{M}directive@n on ENUM extend scalar O@p";

fn definition(document: &mut ServiceDocument, index: usize) -> &mut TypeDefinition {
    match &mut document.definitions[index] {
        TypeSystemDefinition::Type(definition) => &mut definition.node,
        _ => panic!("a type"),
    }
}

fn schema(document: &mut ServiceDocument) -> &mut SchemaDefinition {
    match &mut document.definitions[0] {
        TypeSystemDefinition::Schema(schema) => &mut schema.node,
        _ => panic!("a schema"),
    }
}

fn directive(document: &mut ServiceDocument) -> &mut DirectiveDefinition {
    match &mut document.definitions[4] {
        TypeSystemDefinition::Directive(directive) => &mut directive.node,
        _ => panic!("a directive"),
    }
}

fn object(document: &mut ServiceDocument) -> &mut ObjectType {
    match &mut definition(document, 1).kind {
        TypeKind::Object(object) => object,
        _ => panic!("an object"),
    }
}

fn argument(document: &mut ServiceDocument) -> &mut InputValueDefinition {
    &mut object(document).fields[0].node.arguments[0].node
}

// Each puts a name into a schema file.
const NAMES_OF_SCHEMAS: [Change<ServiceDocument>; 10] = [
    |document, name| schema(document).query.as_mut().unwrap().node = Name::new(name),
    |document, name| definition(document, 1).name.node = Name::new(name),
    |document, name| object(document).implements[0].node = Name::new(name),
    |document, name| object(document).fields[0].node.name.node = Name::new(name),
    |document, name| object(document).fields[0].node.ty.node = Type::new(name).unwrap(),
    |document, name| argument(document).name.node = Name::new(name),
    |document, name| {
        argument(document).default_value.as_mut().unwrap().node = ConstValue::Enum(Name::new(name))
    },
    |document, name| argument(document).directives[0].node.name.node = Name::new(name),
    |document, name| {
        let TypeKind::Union(union) = &mut definition(document, 2).kind else {
            panic!("a union");
        };
        union.members[0].node = Name::new(name);
    },
    |document, name| directive(document).name.node = Name::new(name),
];

#[test]
fn a_schema_file_with_an_invalid_name_is_refused() {
    for (index, change) in NAMES_OF_SCHEMAS.iter().enumerate() {
        for name in NO_NAMES {
            let mut document = parse_schema(SCHEMA_FILE).unwrap();
            change(&mut document, name);
            assert!(is_syntax(print_schema(&document)), "{index}: {name:?}");
        }
        let mut document = parse_schema(SCHEMA_FILE).unwrap();
        change(&mut document, "__type_1");
        let printed = print_schema(&document).unwrap();
        assert!(printed.contains("__type_1"), "{printed}");
        assert!(schema_file_comes_back(&printed), "{printed}");
    }
}

#[test]
fn a_tree_that_no_schema_file_has_is_refused() {
    let changes: [Change<ServiceDocument>; 6] = [
        |document, _| document.definitions.clear(),
        |document, _| definition(document, 5).directives.clear(),
        |document, text| {
            definition(document, 5).description =
                Some(Positioned::new(text.to_owned(), (0, 0).into()))
        },
        |document, _| {
            let TypeKind::Enum(values) = &mut definition(document, 3).kind else {
                panic!("an enum");
            };
            values.values[0].node.value.node = Name::new("true");
        },
        |document, _| directive(document).locations.clear(),
        |document, _| schema(document).query = None,
    ];
    for (index, change) in changes.iter().enumerate() {
        let mut document = parse_schema(SCHEMA_FILE).unwrap();
        change(&mut document, "a");
        assert!(is_syntax(print_schema(&document)), "{index}");
    }
    let mut document = parse_schema(SCHEMA_FILE).unwrap();
    schema(&mut document).mutation = schema(&mut document).query.take();
    assert!(matches!(
        print_schema(&document),
        Err(Error::MissingQueryRoot { .. })
    ));
}

#[test]
fn the_deepest_trees_are_printed_on_the_stack_of_a_thread() {
    let value = format!("{}1{}", "[{a:".repeat(128), "}]".repeat(128));
    let ty = format!("{}T{}", "[".repeat(256), "]!".repeat(256));
    let request = format!(
        "query($v:{ty}={value}){}{{a(b:{value})@c(d:{value})}}{}",
        "{a...on T".repeat(128).replace("a...on T", "...on T{a"),
        "}}".repeat(128)
    );
    let schema_file = format!("type A{{b(c:{ty}={value}@d(e:{value})):{ty}@d(e:{value})}}");
    let printed = thread::Builder::new().stack_size(2 << 20).spawn(move || {
        assert!(request_comes_back(&request));
        assert!(schema_file_comes_back(&schema_file));
    });
    printed.unwrap().join().unwrap();
}
