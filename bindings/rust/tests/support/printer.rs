//! Trees as the JSON that the library makes of them, with places.
use graphql_parser::types::{
    BaseType, ConstDirective, Directive, ExecutableDocument, Field, FieldDefinition,
    FragmentDefinition, InputValueDefinition, InterfaceType, ObjectType, OperationDefinition,
    OperationType, SchemaDefinition, Selection, SelectionSet, ServiceDocument, Type, TypeCondition,
    TypeDefinition, TypeKind, TypeSystemDefinition, VariableDefinition,
};
use graphql_parser::value::{ConstValue, Name, Value};
use graphql_parser::{Pos, Positioned};

/// The definitions of a request, each as JSON, in the order of their places.
pub fn request_definitions(document: &ExecutableDocument) -> Vec<String> {
    let operations = document.operations.iter().map(|(name, operation)| {
        (
            operation.pos,
            json_of(|json| json.operation(name, operation)),
        )
    });
    let fragments = document
        .fragments
        .iter()
        .map(|(name, fragment)| (fragment.pos, json_of(|json| json.fragment(name, fragment))));
    let mut definitions: Vec<(Pos, String)> = operations.chain(fragments).collect();
    definitions.sort_by_key(|(pos, _)| *pos);
    definitions.into_iter().map(|(_, json)| json).collect()
}

/// The definitions of a schema file, each as JSON, in their order.
pub fn schema_definitions(document: &ServiceDocument) -> Vec<String> {
    let definitions = document.definitions.iter();
    definitions
        .map(|definition| json_of(|json| json.definition(definition)))
        .collect()
}

/// The document that has these definitions.
pub fn document(definitions: &[String]) -> String {
    format!(
        "{{\"kind\":\"Document\",\"definitions\":[{}]}}",
        definitions.join(",")
    )
}

fn json_of(write: impl FnOnce(&mut Json)) -> String {
    let mut json = Json(String::new());
    write(&mut json);
    json.0
}

// JSON that is being written.
struct Json(String);

impl Json {
    fn add(&mut self, text: &str) {
        self.0.push_str(text);
    }

    fn string(&mut self, text: &str) {
        self.add("\"");
        for c in text.chars() {
            match c {
                '"' => self.add("\\\""),
                '\\' => self.add("\\\\"),
                '\n' => self.add("\\n"),
                '\r' => self.add("\\r"),
                '\t' => self.add("\\t"),
                '\u{8}' => self.add("\\b"),
                '\u{c}' => self.add("\\f"),
                c if c < ' ' => self.add(&format!("\\u{:04x}", u32::from(c))),
                c => self.0.push(c),
            }
        }
        self.add("\"");
    }

    // A node with its members. One at 0:0 has no place.
    fn node_at(&mut self, kind: &str, pos: Pos, members: impl FnOnce(&mut Json)) {
        self.add(&format!("{{\"kind\":\"{kind}\""));
        if pos != Pos::default() {
            self.add(&format!(",\"line\":{},\"column\":{}", pos.line, pos.column));
        }
        members(self);
        self.add("}");
    }

    // A node of a tree, with what is written of it.
    fn node<T>(&mut self, kind: &str, node: &Positioned<T>, members: impl FnOnce(&mut Json, &T)) {
        self.node_at(kind, node.pos, |json| members(json, &node.node));
    }

    fn key(&mut self, key: &str) {
        self.add(&format!(",\"{key}\":"));
    }

    fn text(&mut self, key: &str, text: &str) {
        self.key(key);
        self.string(text);
    }

    // A member that is a list.
    fn list<T>(&mut self, key: &str, items: &[T], mut write: impl FnMut(&mut Json, &T)) {
        self.key(key);
        self.add("[");
        for (index, item) in items.iter().enumerate() {
            if index > 0 {
                self.add(",");
            }
            write(self, item);
        }
        self.add("]");
    }

    // A node whose value is a text.
    fn leaf(&mut self, kind: &str, pos: Pos, text: &str) {
        self.node_at(kind, pos, |json| json.text("value", text));
    }

    fn name(&mut self, name: &str, pos: Pos) {
        self.key("name");
        self.leaf("Name", pos, name);
    }

    fn placed_name(&mut self, name: &Positioned<Name>) {
        self.name(&name.node, name.pos);
    }

    fn operation(&mut self, name: Option<&Name>, operation: &Positioned<OperationDefinition>) {
        self.node("OperationDefinition", operation, |json, node| {
            json.text("operation", &node.ty.to_string());
            if let Some(name) = name {
                json.name(name, Pos::default());
            }
            let variables = &node.variable_definitions;
            json.list("variableDefinitions", variables, Json::variable);
            json.directives(&node.directives);
            json.set(&node.selection_set);
        });
    }

    fn variable(&mut self, variable: &Positioned<VariableDefinition>) {
        self.node("VariableDefinition", variable, |json, node| {
            json.key("variable");
            json.node("Variable", variable, |json, node| {
                json.placed_name(&node.name)
            });
            json.ty(&node.var_type);
            json.default_value(&node.default_value);
            json.directives(&node.directives);
        });
    }

    fn fragment(&mut self, name: &Name, fragment: &Positioned<FragmentDefinition>) {
        self.node("FragmentDefinition", fragment, |json, node| {
            json.name(name, Pos::default());
            json.condition(&node.type_condition);
            json.directives(&node.directives);
            json.set(&node.selection_set);
        });
    }

    fn condition(&mut self, condition: &Positioned<TypeCondition>) {
        self.key("typeCondition");
        self.named_type(&condition.node.on);
    }

    fn set(&mut self, set: &Positioned<SelectionSet>) {
        self.key("selectionSet");
        self.node("SelectionSet", set, |json, set| {
            json.list("selections", &set.items, Json::selection);
        });
    }

    fn selection(&mut self, selection: &Positioned<Selection>) {
        let pos = match &selection.node {
            Selection::Field(field) => {
                self.node("Field", field, Json::members_of_field);
                field.pos
            }
            Selection::FragmentSpread(spread) => {
                self.node("FragmentSpread", spread, |json, node| {
                    json.placed_name(&node.fragment_name);
                    json.directives(&node.directives);
                });
                spread.pos
            }
            Selection::InlineFragment(fragment) => {
                self.node("InlineFragment", fragment, |json, node| {
                    if let Some(condition) = &node.type_condition {
                        json.condition(condition);
                    }
                    json.directives(&node.directives);
                    json.set(&node.selection_set);
                });
                fragment.pos
            }
        };
        assert_eq!(selection.pos, pos);
    }

    fn members_of_field(&mut self, field: &Field) {
        if let Some(alias) = &field.alias {
            self.key("alias");
            self.leaf("Name", alias.pos, &alias.node);
        }
        self.placed_name(&field.name);
        self.arguments(&field.arguments);
        self.directives(&field.directives);
        if field.selection_set.pos != Pos::default() {
            self.set(&field.selection_set);
        }
    }

    fn arguments(&mut self, arguments: &[(Positioned<Name>, Positioned<Value>)]) {
        self.list("arguments", arguments, |json, (name, value)| {
            json.node_at("Argument", name.pos, |json| {
                json.placed_name(name);
                json.key("value");
                json.value(&value.node, value.pos);
            });
        });
    }

    fn directives(&mut self, directives: &[Positioned<Directive>]) {
        self.list("directives", directives, |json, directive| {
            json.node("Directive", directive, |json, node| {
                json.placed_name(&node.name);
                json.arguments(&node.arguments);
            });
        });
    }

    fn const_directives(&mut self, directives: &[Positioned<ConstDirective>]) {
        let directives: Vec<_> = directives
            .iter()
            .map(|directive| {
                let directive = directive.clone().map(ConstDirective::into_directive);
                assert!(directive.node.clone().into_const().is_some());
                directive
            })
            .collect();
        self.directives(&directives);
    }

    fn const_value(&mut self, value: &ConstValue, pos: Pos) {
        let value = value.clone().into_value();
        assert!(value.clone().into_const().is_some());
        self.value(&value, pos);
    }

    fn value(&mut self, value: &Value, pos: Pos) {
        let nowhere = Pos::default();
        match value {
            Value::Variable(name) => {
                self.node_at("Variable", pos, |json| json.name(name, nowhere));
            }
            Value::Null => self.node_at("NullValue", pos, |_| {}),
            Value::Number(number) => {
                let is_float = number.as_str().contains(['.', 'e', 'E']);
                let kind = if is_float { "FloatValue" } else { "IntValue" };
                self.leaf(kind, pos, number.as_str());
            }
            Value::String(text) => self.leaf("StringValue", pos, text),
            Value::Boolean(value) => self.node_at("BooleanValue", pos, |json| {
                json.key("value");
                json.add(&value.to_string());
            }),
            Value::Enum(name) => self.leaf("EnumValue", pos, name),
            Value::List(items) => self.node_at("ListValue", pos, |json| {
                json.list("values", items, |json, item| json.value(item, nowhere));
            }),
            Value::Object(fields) => self.node_at("ObjectValue", pos, |json| {
                let fields: Vec<_> = fields.iter().collect();
                json.list("fields", &fields, |json, (name, value)| {
                    json.node_at("ObjectField", nowhere, |json| {
                        json.name(name, nowhere);
                        json.key("value");
                        json.value(value, nowhere);
                    });
                });
            }),
        }
    }

    fn named_type(&mut self, name: &Positioned<Name>) {
        self.node_at("NamedType", name.pos, |json| json.placed_name(name));
    }

    fn named_types(&mut self, key: &str, names: &[Positioned<Name>]) {
        self.list(key, names, Json::named_type);
    }

    fn ty(&mut self, ty: &Positioned<Type>) {
        self.key("type");
        self.type_at(&ty.node, ty.pos);
    }

    fn type_at(&mut self, ty: &Type, pos: Pos) {
        if !ty.nullable {
            return self.node_at("NonNullType", pos, |json| {
                json.key("type");
                json.base_type(&ty.base, pos);
            });
        }
        self.base_type(&ty.base, pos);
    }

    fn base_type(&mut self, base: &BaseType, pos: Pos) {
        match base {
            BaseType::Named(name) => self.named_type(&Positioned::new(name.clone(), pos)),
            BaseType::List(inner) => self.node_at("ListType", pos, |json| {
                json.key("type");
                json.type_at(inner, Pos::default());
            }),
        }
    }

    fn default_value(&mut self, value: &Option<Positioned<ConstValue>>) {
        if let Some(value) = value {
            self.key("defaultValue");
            self.const_value(&value.node, value.pos);
        }
    }

    fn description(&mut self, description: &Option<Positioned<String>>) {
        if let Some(text) = description {
            self.key("description");
            self.leaf("StringValue", text.pos, &text.node);
        }
    }

    // What each definition that has a name begins with.
    fn described(&mut self, description: &Option<Positioned<String>>, name: &Positioned<Name>) {
        self.description(description);
        self.placed_name(name);
    }

    fn definition(&mut self, definition: &TypeSystemDefinition) {
        match definition {
            TypeSystemDefinition::Schema(schema) => self.schema(schema),
            TypeSystemDefinition::Type(definition) => self.type_definition(definition),
            TypeSystemDefinition::Directive(directive) => {
                self.node("DirectiveDefinition", directive, |json, node| {
                    json.described(&node.description, &node.name);
                    json.list("arguments", &node.arguments, Json::input_value);
                    json.key("repeatable");
                    json.add(&node.is_repeatable.to_string());
                    json.list("locations", &node.locations, |json, location| {
                        json.leaf("Name", location.pos, location.node.as_str());
                    });
                });
            }
        }
    }

    fn schema(&mut self, schema: &Positioned<SchemaDefinition>) {
        let suffix = suffix(schema.node.extend);
        self.node(&format!("Schema{suffix}"), schema, |json, node| {
            json.description(&node.description);
            json.const_directives(&node.directives);
            let roots = [
                (OperationType::Query, &node.query),
                (OperationType::Mutation, &node.mutation),
                (OperationType::Subscription, &node.subscription),
            ];
            let mut roots: Vec<(OperationType, &Positioned<Name>)> = roots
                .into_iter()
                .filter_map(|(kind, name)| Some((kind, name.as_ref()?)))
                .collect();
            roots.sort_by_key(|(_, name)| name.pos);
            json.list("operationTypes", &roots, |json, (kind, name)| {
                json.node_at("OperationTypeDefinition", Pos::default(), |json| {
                    json.text("operation", &kind.to_string());
                    json.key("type");
                    json.named_type(name);
                });
            });
        });
    }

    fn type_definition(&mut self, definition: &Positioned<TypeDefinition>) {
        let (interfaces, word) = match &definition.node.kind {
            TypeKind::Scalar => (None, "Scalar"),
            TypeKind::Object(object) => (Some(&object.implements), "Object"),
            TypeKind::Interface(interface) => (Some(&interface.implements), "Interface"),
            TypeKind::Union(_) => (None, "Union"),
            TypeKind::Enum(_) => (None, "Enum"),
            TypeKind::InputObject(_) => (None, "InputObject"),
        };
        let suffix = suffix(definition.node.extend);
        self.node(&format!("{word}Type{suffix}"), definition, |json, node| {
            json.described(&node.description, &node.name);
            if let Some(interfaces) = interfaces {
                json.named_types("interfaces", interfaces);
            }
            json.const_directives(&node.directives);
            json.parts(&node.kind);
        });
    }

    // The parts of a type, but for the interfaces.
    fn parts(&mut self, kind: &TypeKind) {
        match kind {
            TypeKind::Scalar => {}
            TypeKind::Object(ObjectType { fields, .. })
            | TypeKind::Interface(InterfaceType { fields, .. }) => {
                self.list("fields", fields, Json::field_definition);
            }
            TypeKind::Union(union) => self.named_types("types", &union.members),
            TypeKind::Enum(values) => self.list("values", &values.values, |json, value| {
                json.node("EnumValueDefinition", value, |json, node| {
                    json.described(&node.description, &node.value);
                    json.const_directives(&node.directives);
                });
            }),
            TypeKind::InputObject(input) => self.list("fields", &input.fields, Json::input_value),
        }
    }

    fn field_definition(&mut self, field: &Positioned<FieldDefinition>) {
        self.node("FieldDefinition", field, |json, node| {
            json.described(&node.description, &node.name);
            json.list("arguments", &node.arguments, Json::input_value);
            json.ty(&node.ty);
            json.const_directives(&node.directives);
        });
    }

    fn input_value(&mut self, value: &Positioned<InputValueDefinition>) {
        self.node("InputValueDefinition", value, |json, node| {
            json.described(&node.description, &node.name);
            json.ty(&node.ty);
            json.default_value(&node.default_value);
            json.const_directives(&node.directives);
        });
    }
}

// The end of the kind of a definition, or of an extension.
fn suffix(extend: bool) -> &'static str {
    if extend {
        "Extension"
    } else {
        "Definition"
    }
}
