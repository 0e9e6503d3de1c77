//! Stand-ins for the crate's `dds` module.

pub mod participant {
    use std::collections::HashMap;

    use crate::{rtps::constant::Token, structure::locator::Locator};

    pub struct DomainParticipant;

    impl DomainParticipant {
        pub fn self_locators(&self) -> HashMap<Token, Vec<Locator>> {
            HashMap::new()
        }
    }
}

pub mod qos {
    #[derive(Clone, PartialEq, Eq, Debug, Default)]
    pub struct QosPolicies;

    impl QosPolicies {
        pub fn modify_by(&self, _other: &Self) -> Self {
            QosPolicies
        }
    }
}

pub mod ddsdata {
    use std::sync::Arc;

    /// The payload: the bytes and nothing else. A clone shares them, as the
    /// crate says of its own ("a cheap `Bytes`-backed clone").
    #[derive(Clone, Debug)]
    pub struct DDSData(pub Arc<[u8]>);
}

pub mod with_key {
    pub mod datawriter {
        #[derive(Clone, Debug)]
        pub struct WriteOptions {
            pub may_block: bool,
        }

        impl WriteOptions {
            pub fn best_effort_may_block(&self) -> bool {
                self.may_block
            }
        }
    }
}
