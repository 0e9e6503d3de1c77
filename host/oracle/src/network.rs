//! Stand-in; MTU is left out by document 01.

pub mod util {
    use std::net::IpAddr;

    pub struct IfAddr;

    pub fn path_mtu_payload_for_peer(_local: &[IfAddr], _peer: IpAddr) -> usize {
        crate::rtps::constant::FALLBACK_MAX_AGGREGATED_DATAGRAM_SIZE
    }
}
