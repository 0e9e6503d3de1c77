//! Stand-in; GUIDs are left out by document 01.

#[derive(Clone, Copy, PartialEq, Eq, Debug, Default)]
pub struct GuidPrefix;

#[derive(Clone, Copy, PartialEq, Eq, Debug, Default)]
pub struct EntityKind;

impl EntityKind {
    pub fn is_user_defined(&self) -> bool {
        true
    }
}

#[derive(Clone, Copy, PartialEq, Eq, Debug, Default)]
pub struct EntityId;

impl EntityId {
    pub const UNKNOWN: EntityId = EntityId;

    pub fn kind(&self) -> EntityKind {
        EntityKind
    }
}

#[derive(Clone, Copy, PartialEq, Eq, Debug, Default)]
pub struct GUID {
    pub prefix: GuidPrefix,
    pub entity_id: EntityId,
}
