//! Requests.
use super::{choices, nodes, Part, Reader};
use crate::pos::Positioned;
use crate::types::{
    DocumentOperations, ExecutableDocument, Field, FragmentDefinition, FragmentSpread,
    InlineFragment, OperationDefinition, OperationType, Selection, SelectionSet, TypeCondition,
    VariableDefinition,
};
use crate::value::Name;
use std::collections::HashMap;

nodes! {
    OperationDefinition { ty, variable_definitions, directives, selection_set }
    VariableDefinition { name, var_type, default_value, directives }
    FragmentDefinition { type_condition, directives, selection_set }
    TypeCondition { on }
    SelectionSet { items }
    #[inline(always)]
    Field { alias, name, arguments, directives, selection_set }
    FragmentSpread { fragment_name, directives }
    InlineFragment { type_condition, directives, selection_set }
}

choices! {
    OperationType { 0: Query, 1: Mutation, 2: Subscription }
}

impl Part for ExecutableDocument {
    fn read(reader: &mut Reader<'_>) -> Option<ExecutableDocument> {
        let operations = reader.part()?;
        let fragments: Vec<(Name, Positioned<FragmentDefinition>)> = reader.part()?;
        Some(ExecutableDocument {
            operations: operations_of(operations),
            fragments: HashMap::from_iter(fragments),
        })
    }
}

// The selection and the node in it are at one place.
impl Part for Positioned<Selection> {
    #[inline(always)]
    fn read(reader: &mut Reader<'_>) -> Option<Positioned<Selection>> {
        let choice = reader.choice()?;
        let pos = reader.part()?;
        let selection = match choice {
            0 => Selection::Field(Positioned::new(reader.part()?, pos)),
            1 => Selection::FragmentSpread(Positioned::new(reader.part()?, pos)),
            2 => Selection::InlineFragment(Positioned::new(reader.part()?, pos)),
            _ => return None,
        };
        Some(Positioned::new(selection, pos))
    }
}

// An operation without a name is alone.
fn operations_of(
    operations: Vec<(Option<Name>, Positioned<OperationDefinition>)>,
) -> DocumentOperations {
    let mut multiple = HashMap::with_capacity(operations.len());
    for (name, operation) in operations {
        match name {
            Some(name) => multiple.insert(name, operation),
            None => return DocumentOperations::Single(operation),
        };
    }
    DocumentOperations::Multiple(multiple)
}
