//! Stand-in for attributes: one opaque handle.

use serde::{Deserialize, Serialize};

#[derive(Debug, Clone, Copy, PartialEq, Eq, Default, Serialize, Deserialize)]
pub struct Attributes(pub u64);

impl Attributes {
    pub fn new() -> Self {
        Self(0)
    }

    pub fn is_empty(&self) -> bool {
        self.0 == 0
    }

    pub fn insert(&mut self, _key: &str, _value: &str) -> Option<String> {
        unimplemented!()
    }

    pub fn remove(&mut self, _key: &str) -> Option<String> {
        unimplemented!()
    }
}
