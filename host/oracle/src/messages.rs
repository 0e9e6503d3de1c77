//! Stand-ins for the two request messages.

pub mod submessages {
    pub mod submessage {
        use crate::structure::sequence_number::SequenceNumberSet;

        #[derive(Debug)]
        pub struct AckNack {
            pub reader_sn_state: SequenceNumberSet,
            pub count: i32,
        }

        #[derive(Debug)]
        pub struct NackFrag;

        pub enum AckSubmessage {
            AckNack(AckNack),
            NackFrag(NackFrag),
        }
    }
}
