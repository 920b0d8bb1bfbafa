// Stand-in for lib.rs: the modules of docs/src under their names.

#[allow(dead_code)]
pub mod access;
#[allow(dead_code)]
pub mod attributes;
#[allow(dead_code)]
pub mod diagnostics;
#[allow(dead_code)]
pub mod edit;
#[allow(dead_code)]
pub mod entities;
#[allow(dead_code)]
pub mod geometry;
#[allow(dead_code)]
pub mod id;
#[allow(dead_code)]
pub mod map;
#[allow(dead_code)]
pub mod ops;
#[allow(dead_code)]
pub mod topology;

pub use attributes::Attributes;
pub use diagnostics::*;
pub use edit::*;
pub use entities::*;
pub use geometry::*;
pub use id::*;
pub use map::*;
pub use ops::*;
pub use topology::*;
