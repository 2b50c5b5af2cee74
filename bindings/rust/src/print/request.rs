//! Requests.
use super::{Print, Tokens};
use crate::types::{
    ExecutableDocument, Field, FragmentDefinition, FragmentSpread, InlineFragment,
    OperationDefinition, OperationType, Selection, SelectionSet, TypeCondition, VariableDefinition,
};
use crate::value::Name;

// An operation with its name, if it has one, or a fragment with its own.
#[derive(Clone, Copy)]
enum Definition<'a> {
    Operation(Option<&'a Name>, &'a OperationDefinition),
    Fragment(&'a Name, &'a FragmentDefinition),
}

impl<'a> Definition<'a> {
    // Where it comes among those at one place, as in a tree made by hand.
    fn order(self) -> (bool, Option<&'a Name>) {
        match self {
            Definition::Operation(name, _) => (false, name),
            Definition::Fragment(name, _) => (true, Some(name)),
        }
    }
}

impl Print for ExecutableDocument {
    fn print(&self, out: &mut Tokens) {
        let operations = self.operations.iter().map(|(name, operation)| {
            let definition = Definition::Operation(name, &operation.node);
            (operation.pos, definition)
        });
        let fragments = self.fragments.iter().map(|(name, fragment)| {
            let definition = Definition::Fragment(name, &fragment.node);
            (fragment.pos, definition)
        });
        let mut definitions: Vec<_> = operations.chain(fragments).collect();
        definitions.sort_by_key(|(pos, definition)| (*pos, definition.order()));
        for (_, definition) in definitions {
            match definition {
                Definition::Operation(name, operation) => print_operation(out, name, operation),
                Definition::Fragment(name, fragment) => print_fragment(out, name, fragment),
            }
        }
    }
}

fn print_operation(out: &mut Tokens, name: Option<&Name>, operation: &OperationDefinition) {
    let OperationDefinition {
        ty,
        variable_definitions,
        directives,
        selection_set,
    } = operation;
    let is_short = *ty == OperationType::Query
        && name.is_none()
        && variable_definitions.is_empty()
        && directives.is_empty();
    if !is_short {
        out.part(ty)
            .part(&name)
            .between("(", variable_definitions, ")")
            .part(&directives[..]);
    }
    out.part(selection_set);
}

fn print_fragment(out: &mut Tokens, name: &Name, fragment: &FragmentDefinition) {
    out.token("fragment")
        .name_but(&["on"], name)
        .part(&fragment.type_condition)
        .part(&fragment.directives[..])
        .part(&fragment.selection_set);
}

impl Print for VariableDefinition {
    fn print(&self, out: &mut Tokens) {
        out.token("$")
            .part(&self.name)
            .token(":")
            .part(&self.var_type)
            .led("=", &self.default_value)
            .part(&self.directives[..]);
    }
}

impl Print for TypeCondition {
    fn print(&self, out: &mut Tokens) {
        out.token("on").part(&self.on);
    }
}

// An empty one has braces too: a parser rejects it if an operation or a fragment needs a set.
impl Print for SelectionSet {
    fn print(&self, out: &mut Tokens) {
        out.token("{").part(&self.items[..]).token("}");
    }
}

impl Print for Selection {
    fn print(&self, out: &mut Tokens) {
        match self {
            Selection::Field(field) => out.part(field),
            Selection::FragmentSpread(spread) => out.part(spread),
            Selection::InlineFragment(fragment) => out.part(fragment),
        };
    }
}

impl Print for Field {
    fn print(&self, out: &mut Tokens) {
        if let Some(alias) = &self.alias {
            out.part(alias).token(":");
        }
        out.part(&self.name)
            .between("(", &self.arguments, ")")
            .part(&self.directives[..])
            .between("{", &self.selection_set.node.items, "}");
    }
}

impl Print for FragmentSpread {
    fn print(&self, out: &mut Tokens) {
        out.token("...")
            .name_but(&["on"], &self.fragment_name.node)
            .part(&self.directives[..]);
    }
}

impl Print for InlineFragment {
    fn print(&self, out: &mut Tokens) {
        out.token("...")
            .part(&self.type_condition)
            .part(&self.directives[..])
            .part(&self.selection_set);
    }
}
