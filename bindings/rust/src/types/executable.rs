//! The tree of a request: operations and fragments, and the selections in them.
use super::{get_argument, Directive, OperationType, Type};
use crate::pos::Positioned;
use crate::value::{ConstValue, Name, Value};
use std::collections::{hash_map, HashMap};
use std::iter::FusedIterator;

/// A request (section 2.2): its operations and its fragments.
#[derive(Clone, Debug)]
pub struct ExecutableDocument {
    /// The operations: a parsed request has at least one.
    pub operations: DocumentOperations,
    /// The fragments under their names.
    pub fragments: HashMap<Name, Positioned<FragmentDefinition>>,
}

/// The operations of a request (section 2.3).
#[derive(Clone, Debug)]
pub enum DocumentOperations {
    /// One operation without a name, as `{a}` or `query {a}`.
    Single(Positioned<OperationDefinition>),
    /// Operations under their names.
    Multiple(HashMap<Name, Positioned<OperationDefinition>>),
}

impl DocumentOperations {
    /// The operations, in no order of their own, each with its name; the name is None exactly for `Single`.
    #[must_use]
    pub fn iter(&self) -> OperationsIter<'_> {
        OperationsIter(match self {
            DocumentOperations::Single(operation) => Left::Single(Some(operation)),
            DocumentOperations::Multiple(operations) => Left::Multiple(operations.iter()),
        })
    }
}

/// The operations of a request, each with its name if it has one.
///
/// Each operation comes once, and then `None` for good; `len` is how many are left.
#[derive(Clone, Debug)]
pub struct OperationsIter<'a>(Left<'a>);

// A lone operation, until it was returned, or those of a map that are left.
#[derive(Clone, Debug)]
enum Left<'a> {
    Single(Option<&'a Positioned<OperationDefinition>>),
    Multiple(hash_map::Iter<'a, Name, Positioned<OperationDefinition>>),
}

impl<'a> Iterator for OperationsIter<'a> {
    type Item = (Option<&'a Name>, &'a Positioned<OperationDefinition>);

    fn next(&mut self) -> Option<Self::Item> {
        match &mut self.0 {
            Left::Single(operation) => Some((None, operation.take()?)),
            Left::Multiple(operations) => {
                let (name, operation) = operations.next()?;
                Some((Some(name), operation))
            }
        }
    }

    fn size_hint(&self) -> (usize, Option<usize>) {
        (self.len(), Some(self.len()))
    }
}

impl FusedIterator for OperationsIter<'_> {}

impl ExactSizeIterator for OperationsIter<'_> {
    fn len(&self) -> usize {
        match &self.0 {
            Left::Single(operation) => usize::from(operation.is_some()),
            Left::Multiple(operations) => operations.len(),
        }
    }
}

/// An operation (section 2.3). Its name is the key that a document keeps it under.
///
/// The node is at its keyword, or at the `{` of the short form.
#[derive(Clone, Debug)]
pub struct OperationDefinition {
    /// The kind; `query` in the short form.
    pub ty: OperationType,
    /// The variables, in source order.
    pub variable_definitions: Vec<Positioned<VariableDefinition>>,
    /// The directives, in source order.
    pub directives: Vec<Positioned<Directive>>,
    /// What is selected of the root, at its `{`.
    pub selection_set: Positioned<SelectionSet>,
}

/// The definition of a variable (section 2.10).
///
/// The node is at its `$`.
#[derive(Clone, Debug)]
pub struct VariableDefinition {
    /// The name after the `$`.
    pub name: Positioned<Name>,
    /// The type, at its first token.
    pub var_type: Positioned<Type>,
    /// The directives, in source order. They may contain variables (this project's choice).
    pub directives: Vec<Positioned<Directive>>,
    /// The value after the `=`, at its first token.
    pub default_value: Option<Positioned<ConstValue>>,
}

impl VariableDefinition {
    /// The value of the variable if a request has none: the default if there is one; else null if the type may
    /// be null; else None.
    #[must_use]
    pub fn default_value(&self) -> Option<&ConstValue> {
        match &self.default_value {
            Some(value) => Some(&value.node),
            None if self.var_type.node.nullable => Some(&ConstValue::Null),
            None => None,
        }
    }
}

/// The selections of an object (section 2.4).
///
/// The node is at its `{`; the set of a field that has none is empty and at 0:0.
#[derive(Clone, Debug, Default)]
pub struct SelectionSet {
    /// The selections, in source order.
    pub items: Vec<Positioned<Selection>>,
}

/// A selection (section 2.4). The node in it is at the same place.
#[derive(Clone, Debug)]
pub enum Selection {
    /// A field, at its alias if it has one, else at its name.
    Field(Positioned<Field>),
    /// A fragment by its name, at the `...`.
    FragmentSpread(Positioned<FragmentSpread>),
    /// A fragment that is written out, at the `...`.
    InlineFragment(Positioned<InlineFragment>),
}

impl Selection {
    /// The directives of the field, the spread or the inline fragment itself, in source order.
    #[must_use]
    pub fn directives(&self) -> &Vec<Positioned<Directive>> {
        match self {
            Selection::Field(field) => &field.node.directives,
            Selection::FragmentSpread(spread) => &spread.node.directives,
            Selection::InlineFragment(fragment) => &fragment.node.directives,
        }
    }

    /// The same directives, to be changed.
    #[must_use]
    pub fn directives_mut(&mut self) -> &mut Vec<Positioned<Directive>> {
        match self {
            Selection::Field(field) => &mut field.node.directives,
            Selection::FragmentSpread(spread) => &mut spread.node.directives,
            Selection::InlineFragment(fragment) => &mut fragment.node.directives,
        }
    }
}

/// A field (section 2.5).
#[derive(Clone, Debug)]
pub struct Field {
    /// The name before the `:` (section 2.7).
    pub alias: Option<Positioned<Name>>,
    /// The name of the field.
    pub name: Positioned<Name>,
    /// The arguments, in source order (section 2.6). One name may come twice.
    pub arguments: Vec<(Positioned<Name>, Positioned<Value>)>,
    /// The directives, in source order.
    pub directives: Vec<Positioned<Directive>>,
    /// What is selected of the field's value, at its `{`; empty, at 0:0, if nothing is.
    pub selection_set: Positioned<SelectionSet>,
}

impl Field {
    /// The name of the field's value in an answer: the alias if there is one, else the name.
    #[must_use]
    pub fn response_key(&self) -> &Positioned<Name> {
        self.alias.as_ref().unwrap_or(&self.name)
    }

    get_argument!(Value);
}

/// The use of a fragment by its name (section 2.8).
#[derive(Clone, Debug)]
pub struct FragmentSpread {
    /// The name after the `...`: not `on`.
    pub fragment_name: Positioned<Name>,
    /// The directives, in source order.
    pub directives: Vec<Positioned<Directive>>,
}

/// A fragment that is written where it is used (section 2.8.2).
#[derive(Clone, Debug)]
pub struct InlineFragment {
    /// The type that it applies to, if it names one.
    pub type_condition: Option<Positioned<TypeCondition>>,
    /// The directives, in source order.
    pub directives: Vec<Positioned<Directive>>,
    /// What it selects, at its `{`.
    pub selection_set: Positioned<SelectionSet>,
}

/// The definition of a fragment (section 2.8). Its name is the key that a document keeps it under.
///
/// The node is at its keyword.
#[derive(Clone, Debug)]
pub struct FragmentDefinition {
    /// The type that it applies to.
    pub type_condition: Positioned<TypeCondition>,
    /// The directives, in source order.
    pub directives: Vec<Positioned<Directive>>,
    /// What it selects, at its `{`.
    pub selection_set: Positioned<SelectionSet>,
}

/// The type that a fragment applies to (section 2.8.1).
///
/// The node is at the name of the type, as the name itself: the tree that the library returns doesn't keep the place
/// of `on`.
#[derive(Clone, Debug)]
pub struct TypeCondition {
    /// The name of the type.
    pub on: Positioned<Name>,
}
