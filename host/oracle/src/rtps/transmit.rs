//! Stand-in; routes are left out by document 01.

use crate::structure::{guid::GuidPrefix, locator::Locator};

#[derive(Clone, Copy, PartialEq, Eq, Debug, Default)]
pub struct SendRoute;

pub struct InterfaceSelector;

pub struct InterfaceObservations;

impl InterfaceObservations {
    pub fn get(&self, _prefix: GuidPrefix) -> Option<()> {
        None
    }
}

pub trait RouteSelector {
    fn select(
        &self,
        unicast: &[Locator],
        multicast: &[Locator],
        loopback: &[Locator],
        observed: Option<()>,
        local_multicast: &[InterfaceSelector],
    ) -> SendRoute;
}
