//! Stand-in; locators are left out by document 01.

use std::net::{Ipv4Addr, SocketAddr};

#[derive(Clone, Copy, PartialEq, Eq, Debug)]
pub struct Locator;

impl Locator {
    pub fn is_loopback(&self) -> bool {
        false
    }

    pub fn is_udp(&self) -> bool {
        true
    }
}

impl From<Locator> for SocketAddr {
    fn from(_: Locator) -> Self {
        SocketAddr::from((Ipv4Addr::UNSPECIFIED, 0))
    }
}
