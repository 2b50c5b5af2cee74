//! Schema files.
use super::{Print, Tokens};
use crate::pos::Positioned;
use crate::types::{
    DirectiveDefinition, DirectiveLocation, EnumValueDefinition, FieldDefinition,
    InputValueDefinition, OperationType, SchemaDefinition, ServiceDocument, TypeDefinition,
    TypeKind, TypeSystemDefinition,
};
use crate::value::{Name, Printed};

impl Print for ServiceDocument {
    fn print(&self, out: &mut Tokens) {
        out.part(&self.definitions[..]);
    }
}

impl Print for TypeSystemDefinition {
    fn print(&self, out: &mut Tokens) {
        match self {
            TypeSystemDefinition::Schema(schema) => out.part(schema),
            TypeSystemDefinition::Type(definition) => out.part(definition),
            TypeSystemDefinition::Directive(directive) => out.part(directive),
        };
    }
}

// A description, as a block string if that has its value.
impl Print for String {
    fn print(&self, out: &mut Tokens) {
        if !is_in_block(self) {
            out.part(&Printed(self));
            return;
        }
        // The library writes other line ends beside the quotes. A first line that begins one would lose its indent.
        let before = if self.contains('\n') { "\n" } else { "" };
        let escaped = self.replace("\"\"\"", "\\\"\"\"");
        out.token(&format!("\"\"\"{before}{escaped}\n\"\"\""));
    }
}

// Whether a block string has this value, shows no control character but tabs and line feeds, and isn't empty (section 2.9.4): the
// first line and the last aren't blank, and if there are more than one, they have no indent in common.
fn is_in_block(text: &str) -> bool {
    let blanks = ['\t', ' '];
    let is_blank = |line: &&str| line.trim_start_matches(blanks).is_empty();
    let begins_in_text = |line: &&str| !line.is_empty() && !line.starts_with(blanks);
    let is_clear = |c: char| !c.is_control() || matches!(c, '\t' | '\n');
    let lines: Vec<&str> = text.split('\n').collect();
    text.chars().all(is_clear)
        && !lines.first().is_some_and(is_blank)
        && !lines.last().is_some_and(is_blank)
        && (lines.len() == 1 || lines.iter().any(begins_in_text))
}

// A kind of operation, and the name of the type that it begins at.
struct Root<'a>(OperationType, &'a Positioned<Name>);

impl Print for Root<'_> {
    fn print(&self, out: &mut Tokens) {
        out.part(&self.0).token(":").part(self.1);
    }
}

// The roots that a schema has, in the order of their places.
fn roots_of(schema: &SchemaDefinition) -> Vec<Root<'_>> {
    let roots = [
        (OperationType::Query, &schema.query),
        (OperationType::Mutation, &schema.mutation),
        (OperationType::Subscription, &schema.subscription),
    ];
    let roots = roots.into_iter();
    let mut roots: Vec<Root<'_>> = roots
        .filter_map(|(kind, name)| Some(Root(kind, name.as_ref()?)))
        .collect();
    roots.sort_by_key(|Root(_, name)| name.pos);
    roots
}

impl Print for SchemaDefinition {
    fn print(&self, out: &mut Tokens) {
        out.part(&self.description)
            .word_if(self.extend, "extend")
            .token("schema")
            .part(&self.directives[..])
            .between("{", &roots_of(self), "}");
    }
}

impl Print for TypeDefinition {
    fn print(&self, out: &mut Tokens) {
        out.part(&self.description)
            .word_if(self.extend, "extend")
            .token(keyword(&self.kind))
            .part(&self.name)
            .separated("implements", "&", interfaces(&self.kind))
            .part(&self.directives[..])
            .part(&self.kind);
    }
}

fn keyword(kind: &TypeKind) -> &'static str {
    match kind {
        TypeKind::Scalar => "scalar",
        TypeKind::Object(_) => "type",
        TypeKind::Interface(_) => "interface",
        TypeKind::Union(_) => "union",
        TypeKind::Enum(_) => "enum",
        TypeKind::InputObject(_) => "input",
    }
}

fn interfaces(kind: &TypeKind) -> &[Positioned<Name>] {
    match kind {
        TypeKind::Object(object) => &object.implements,
        TypeKind::Interface(interface) => &interface.implements,
        _ => &[],
    }
}

// What comes after the directives of a type.
impl Print for TypeKind {
    fn print(&self, out: &mut Tokens) {
        match self {
            TypeKind::Scalar => out,
            TypeKind::Object(object) => out.between("{", &object.fields, "}"),
            TypeKind::Interface(interface) => out.between("{", &interface.fields, "}"),
            TypeKind::Union(union) => out.separated("=", "|", &union.members),
            TypeKind::Enum(values) => out.between("{", &values.values, "}"),
            TypeKind::InputObject(input) => out.between("{", &input.fields, "}"),
        };
    }
}

impl Print for FieldDefinition {
    fn print(&self, out: &mut Tokens) {
        out.part(&self.description)
            .part(&self.name)
            .between("(", &self.arguments, ")")
            .token(":")
            .part(&self.ty)
            .part(&self.directives[..]);
    }
}

impl Print for InputValueDefinition {
    fn print(&self, out: &mut Tokens) {
        out.part(&self.description)
            .part(&self.name)
            .token(":")
            .part(&self.ty)
            .led("=", &self.default_value)
            .part(&self.directives[..]);
    }
}

impl Print for EnumValueDefinition {
    fn print(&self, out: &mut Tokens) {
        out.part(&self.description)
            .part(&self.value)
            .part(&self.directives[..]);
    }
}

impl Print for DirectiveDefinition {
    fn print(&self, out: &mut Tokens) {
        out.part(&self.description)
            .token("directive")
            .token("@")
            .part(&self.name)
            .between("(", &self.arguments, ")")
            .word_if(self.is_repeatable, "repeatable")
            .separated("on", "|", &self.locations);
    }
}

impl Print for DirectiveLocation {
    fn print(&self, out: &mut Tokens) {
        out.token(self.as_str());
    }
}

#[cfg(test)]
mod tests {
    use super::is_in_block;

    #[test]
    fn a_block_string_has_the_values_that_keep_their_lines() {
        for text in [
            "a", " a", "\ta\"", "a\\", "\"\"\"", "a\nb", "a\n\n  b", " a\nb", "a\n b", "é",
        ] {
            assert!(is_in_block(text), "{text:?}");
        }
        for text in [
            "", " ", "\t", "\n", "a\n", "a\n ", "\na", " \na", " a\n b", "a\r", "a\r\nb", "é\u{7}",
        ] {
            assert!(!is_in_block(text), "{text:?}");
        }
    }
}
