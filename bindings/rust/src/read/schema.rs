//! Schema files.
use super::{choices, nodes, Part, Reader};
use crate::types::{
    DirectiveDefinition, DirectiveLocation, EnumType, EnumValueDefinition, FieldDefinition,
    InputObjectType, InputValueDefinition, InterfaceType, ObjectType, SchemaDefinition,
    ServiceDocument, TypeDefinition, TypeKind, TypeSystemDefinition, UnionType,
};

nodes! {
    ServiceDocument { definitions }
    SchemaDefinition { description, extend, directives, query, mutation, subscription }
    TypeDefinition { extend, description, name, directives, kind }
    ObjectType { implements, fields }
    InterfaceType { implements, fields }
    UnionType { members }
    EnumType { values }
    InputObjectType { fields }
    FieldDefinition { description, name, arguments, ty, directives }
    InputValueDefinition { description, name, ty, default_value, directives }
    EnumValueDefinition { description, value, directives }
    DirectiveDefinition { description, name, arguments, is_repeatable, locations }
}

choices! {
    TypeSystemDefinition { 0: Schema(_), 1: Type(_), 2: Directive(_) }
    TypeKind { 0: Scalar, 1: Object(_), 2: Interface(_), 3: Union(_), 4: Enum(_), 5: InputObject(_) }
}

// A location, by its name.
impl Part for DirectiveLocation {
    fn read(reader: &mut Reader<'_>) -> Option<DirectiveLocation> {
        let name = reader.text()?;
        let is_named = |location: &DirectiveLocation| location.as_str() == name;
        DirectiveLocation::ALL.into_iter().find(is_named)
    }
}
