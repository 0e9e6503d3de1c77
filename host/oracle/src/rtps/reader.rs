//! Stand-in; only `from_reader`, which document 01 leaves out, uses it.

use crate::{dds::qos::QosPolicies, structure::guid::GUID};

pub struct ReaderIngredients {
    pub guid: GUID,
    pub qos_policy: QosPolicies,
}
