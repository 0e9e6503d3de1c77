//! The crate's `RtpsReaderProxy` on plain numbers.

use crate::{
    dds::qos::QosPolicies,
    messages::submessages::submessage::{AckNack, AckSubmessage},
    rtps::{constant::with_cap, rtps_reader_proxy::RtpsReaderProxy},
    structure::{
        guid::GUID,
        sequence_number::{FragmentNumber, FragmentNumberSet, SequenceNumber, SequenceNumberSet},
    },
};

#[derive(Clone)]
pub struct Reader {
    cap: usize,
    proxy: RtpsReaderProxy,
}

impl Reader {
    pub fn new(cap: usize) -> Self {
        assert!(crate::fixed_cap().map_or(true, |fixed| fixed == cap));
        let proxy = RtpsReaderProxy::new(GUID::default(), QosPolicies, false);
        Reader { cap, proxy }
    }

    pub fn handle_ack_nack(&mut self, base: i64, count: u32, words: [u32; 8], last: i64) {
        let message = AckSubmessage::AckNack(AckNack {
            reader_sn_state: SequenceNumberSet::new(base, count, words),
            count: 0,
        });
        self.proxy
            .handle_ack_nack(&message, SequenceNumber::new(last));
    }

    pub fn notify_new_cache_change(&mut self, number: i64) {
        let proxy = &mut self.proxy;
        with_cap(self.cap, || {
            proxy.notify_new_cache_change(SequenceNumber::new(number))
        });
    }

    pub fn mark_change_sent(&mut self, number: i64) {
        self.proxy.mark_change_sent(SequenceNumber::new(number));
    }

    pub fn remove_from_unsent_set_all_before(&mut self, number: i64) {
        self.proxy
            .remove_from_unsent_set_all_before(SequenceNumber::new(number));
    }

    pub fn insert_pending_gap(&mut self, number: i64) {
        self.proxy.insert_pending_gap(SequenceNumber::new(number));
    }

    pub fn set_pending_gap_up_to(&mut self, end: i64) {
        self.proxy.set_pending_gap_up_to(SequenceNumber::new(end));
    }

    pub fn mark_frags_requested(&mut self, sample: i64, base: u32, count: u32, words: [u32; 8]) {
        let set = FragmentNumberSet::new(base, count, words);
        self.proxy
            .mark_frags_requested(SequenceNumber::new(sample), &set);
    }

    pub fn mark_frag_sent(&mut self, sample: i64, fragment: u32) {
        self.proxy
            .mark_frag_sent(SequenceNumber::new(sample), &FragmentNumber::new(fragment));
    }
}

/// What can be seen of the proxy.
impl Reader {
    pub fn acked_up_to_before(&self) -> i64 {
        i64::from(self.proxy.acked_up_to_before())
    }

    pub fn first_unsent_change(&self) -> Option<i64> {
        self.proxy.first_unsent_change().map(i64::from)
    }

    pub fn unsent_changes(&self) -> Vec<i64> {
        self.proxy.unsent_changes_iter().map(i64::from).collect()
    }

    pub fn pending_gap(&self) -> Vec<i64> {
        let gap = self.proxy.get_pending_gap();
        gap.iter().map(|n| i64::from(*n)).collect()
    }

    /// The requested fragments of the smallest sample held.
    pub fn frags_requested(&self) -> Vec<(i64, u32)> {
        self.proxy
            .frags_requested_iterator()
            .map(|(sample, fragment)| (i64::from(sample), u32::from(fragment)))
            .collect()
    }

    pub fn first_frag_requested(&self) -> Option<(i64, u32)> {
        let (sample, fragment) = self.proxy.frags_requested_iterator().next()?;
        Some((i64::from(sample), u32::from(fragment)))
    }

    pub fn repair_frags_requested(&self) -> bool {
        self.proxy.repair_frags_requested()
    }

    /// Every requested fragment. The crate shows one sample at a time, so a
    /// copy is worked off until its iterator has nothing more.
    pub fn all_frags_requested(&self) -> Vec<(i64, u32)> {
        let mut all = self.frags_requested();
        if all.is_empty() {
            return all;
        }
        let mut copy = self.clone();
        let mut shown = all.clone();
        while !shown.is_empty() {
            for (sample, fragment) in shown {
                copy.mark_frag_sent(sample, fragment);
            }
            shown = copy.frags_requested();
            all.extend_from_slice(&shown);
        }
        all
    }
}
