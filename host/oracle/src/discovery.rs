//! Stand-ins; only `from_discovered_reader_data`, which document 01 leaves out,
//! uses them.

pub mod sedp_messages {
    use crate::{
        dds::qos::QosPolicies,
        structure::{guid::GUID, locator::Locator},
    };

    pub struct ReaderProxy {
        pub remote_reader_guid: GUID,
        pub expects_inline_qos: bool,
        pub unicast_locator_list: Vec<Locator>,
        pub multicast_locator_list: Vec<Locator>,
    }

    pub struct SubscriptionTopicData;

    impl SubscriptionTopicData {
        pub fn qos(&self) -> QosPolicies {
            QosPolicies
        }
    }

    pub struct DiscoveredReaderData {
        pub reader_proxy: ReaderProxy,
        pub subscription_topic_data: SubscriptionTopicData,
    }
}
