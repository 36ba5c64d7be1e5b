// Made by tools/erase from crates/test_report_run/src/running/names.rt. Do not edit.
//! The numbers of the running tests of each name.

use std::collections::{BTreeMap, BTreeSet};

/// The numbers of the running tests of each name. A name without a running test is not in the map.
#[derive(Clone, Debug)]
pub(crate) struct NameOrders {
    orders: BTreeMap<String, BTreeSet<usize>>,
}

impl NameOrders {
    /// Returns no numbers.
    pub(crate) fn new() -> NameOrders {
        NameOrders {
            orders: BTreeMap::new(),
        }
    }

    /// Adds a number to those of a name.
    pub(crate) fn insert(&mut self, name: &str, order: usize) {
        let name = String::from(name);
        let orders = self.orders.entry(name).or_insert(BTreeSet::new());
        orders.insert(order);
    }

    /// Removes a number from those of a name.
    pub(crate) fn remove(&mut self, name: &str, order: usize) {
        let Some(orders) = self.orders.get_mut(name) else {
            return;
        };
        orders.remove(&order);
        if orders.is_empty() {
            self.orders.remove(name);
        }
    }

    /// Returns the least number of a name.
    pub(crate) fn first(&self, name: &str) -> Option<usize> {
        let orders = self.orders.get(name)?;
        orders.first().copied()
    }
}
