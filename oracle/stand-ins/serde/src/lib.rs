//! Stand-in for serde: the traits' names and shapes, so that the Rust of docs/src compiles.
//! Nothing is ever serialized here.

pub use serde_derive::{Deserialize, Serialize};

pub trait Serializer: Sized {
    type Ok;
    type Error;
}

pub trait Serialize {
    fn serialize<S: Serializer>(&self, s: S) -> Result<S::Ok, S::Error>;
}

pub trait Deserializer<'de>: Sized {
    type Error;
}

pub trait Deserialize<'de>: Sized {
    fn deserialize<D: Deserializer<'de>>(d: D) -> Result<Self, D::Error>;
}
