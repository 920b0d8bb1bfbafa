//! Lane maps for driverless yard tractors, and the six edits on them, by a proved core.
//!
//! A [`Map`] owns the tables that the core edits in place. It is built and read by records ([`Lane`], [`Boundary`] ..) and changed by six
//! methods with the names, arguments and results of the original (vectormap-rs): [`Map::split_lane`], [`Map::merge_lanes`],
//! [`Map::connect`], [`Map::disconnect`], [`Map::set_neighbor`], [`Map::remove_lane`]; [`Map::apply`] makes any of them from data, and
//! [`Map::job`] several as one, all of them or none. What an
//! accepted edit leaves and lists, and when an edit is refused, is proved of the core (`libvoldrekka.a`); this crate carries records in and
//! answers out, makes room as it is wanted, and adds the original's message texts.
//!
//! ```
//! use voldrekka::*;
//!
//! // Two lanes side by side; the second is right of the first.
//! let mut map = Map::new();
//! for (id, y) in [(101, 2.0), (102, -2.0), (103, -6.0)] {
//!     let line = Polyline3::from_xy(&[[0.0, y], [10.0, y]]);
//!     map.insert_boundary(Boundary::new(BoundaryId(id), BoundaryKind::SolidThin, line))?;
//! }
//! map.insert_lane(Lane::new(LaneId(1), BoundaryId(101), BoundaryId(102)))?;
//! map.insert_lane(Lane::new(LaneId(2), BoundaryId(102), BoundaryId(103)))?;
//! map.set_neighbor(LaneId(1), Side::Right, Some(Neighbor::same(LaneId(2))))?;
//!
//! // Splitting the first alone: the boundary that both share is copied, and its second half stands beside nothing.
//! let alone = SplitOptions { include_neighbors: false };
//! let (second, changes) = map.split_lane(LaneId(1), SplitAt::Fraction(0.5), alone)?;
//! assert_eq!(second, LaneId(107));
//! let warnings: Vec<String> = changes.warnings.iter().map(|w| w.message.clone()).collect();
//! assert_eq!(
//!     warnings,
//!     [
//!         "boundary:102 is also used by lanes outside the split group; the split lanes now use copies (boundary:105, boundary:106)",
//!         "lane:2 was not split, so it stays the Right neighbor of lane:1 only; lane:107 has no Right neighbor",
//!     ]
//! );
//!
//! // What cannot be done is refused, and the map is as it was.
//! let refused = map.connect(LaneId(1), LaneId(1));
//! assert_eq!(refused.unwrap_err().to_string(), "invalid argument `to`: a lane cannot be its own successor");
//! # Ok::<(), Box<dyn std::error::Error>>(())
//! ```
//!
//! Maps as text are in [`text`], pictures of them in [`draw`]. The core's own functions on slices are in [`sys`], for a host that keeps its tables itself.

#![deny(unsafe_code)]
#![warn(missing_docs)]

pub mod changes;
pub mod draw;
pub mod edit;
pub mod geometry;
pub mod ids;
pub mod jobs;
pub mod layout;
pub mod map;
mod messages;
pub mod records;
mod stack;
#[allow(unsafe_code)]
pub mod sys;
mod tables;
pub mod text;

pub use changes::{ChangeSet, Done, EditError, EditResult, Issue, IssueCode, JobRefused, Refusal, Refused, Severity};
pub use edit::{Command, SplitAt, SplitOptions};
pub use geometry::{Point3, Polyline3};
pub use ids::*;
pub use map::{Fault, Map, MapError};
pub use messages::MIN_PIECE_LENGTH;
pub use records::*;
