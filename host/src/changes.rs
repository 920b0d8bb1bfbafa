//! What an edit answers: the change set with its warnings, or the refusal.

use std::fmt;

use crate::ids::*;
use crate::layout::*;

/// What an edit changed. The first three lists are sorted by kind and then by id, without repeats, and no entity is in two of them.
#[derive(Debug, Clone, PartialEq, Eq, Default)]
pub struct ChangeSet {
    /// What is new.
    pub created: Vec<EntityRef>,
    /// What was there and may have changed: everything that did, and some that an edit touched and left as it was.
    pub modified: Vec<EntityRef>,
    /// What is gone.
    pub deleted: Vec<EntityRef>,
    /// What the caller should know, in the order raised.
    pub warnings: Vec<Issue>,
}

impl ChangeSet {
    /// Whether nothing changed.
    pub fn is_empty(&self) -> bool {
        self.created.is_empty() && self.modified.is_empty() && self.deleted.is_empty()
    }

    /// Ids of what was created of a kind.
    pub fn created_ids(&self, kind: EntityKind) -> Vec<u64> {
        self.created.iter().filter(|e| e.kind() == kind).map(|e| e.raw()).collect()
    }
}

/// How serious an issue is.
#[derive(Debug, Clone, Copy, PartialEq, Eq, PartialOrd, Ord, Hash)]
pub enum Severity {
    /// A note.
    Info,
    /// Suspicious but usable.
    Warning,
    /// Unusable in this respect; none of the six edits raises it.
    Error,
}

impl Severity {
    /// Each severity at the place of its number.
    pub const ALL: [Severity; 3] = [Severity::Info, Severity::Warning, Severity::Error];

    /// Its name.
    pub const fn as_str(self) -> &'static str {
        match self {
            Severity::Info => "info",
            Severity::Warning => "warning",
            Severity::Error => "error",
        }
    }
}

impl fmt::Display for Severity {
    fn fmt(&self, f: &mut fmt::Formatter<'_>) -> fmt::Result {
        f.write_str(self.as_str())
    }
}

/// What an issue is about: the codes that the six edits raise.
#[derive(Debug, Clone, Copy, PartialEq, Eq, Hash)]
pub enum IssueCode {
    /// What was asked for was so already; nothing was done.
    NoOp,
    /// Linked lanes do not meet.
    GeometricGap,
    /// A boundary is not shared, or no longer.
    BoundaryUnshared,
    /// A neighbour could not be kept.
    NeighborDropped,
    /// A rule is left without a lane.
    OrphanRule,
    /// Merged lanes differed; what the first one had was kept.
    AttributeConflict,
}

impl IssueCode {
    /// Each code with its number and its name.
    pub const ALL: [(IssueCode, u64, &'static str); 6] = [
        (IssueCode::NoOp, CODE_NO_OP, "no_op"),
        (IssueCode::GeometricGap, CODE_GEOMETRIC_GAP, "geometric_gap"),
        (IssueCode::BoundaryUnshared, CODE_BOUNDARY_UNSHARED, "boundary_unshared"),
        (IssueCode::NeighborDropped, CODE_NEIGHBOR_DROPPED, "neighbor_dropped"),
        (IssueCode::OrphanRule, CODE_ORPHAN_RULE, "orphan_rule"),
        (IssueCode::AttributeConflict, CODE_ATTRIBUTE_CONFLICT, "attribute_conflict"),
    ];

    /// Its name.
    pub fn as_str(self) -> &'static str {
        let entry = Self::ALL.iter().find(|(code, _, _)| *code == self);
        entry.expect("every code is listed").2
    }

    pub(crate) fn of_number(number: u64) -> Option<Self> {
        Self::ALL.iter().find(|(_, n, _)| *n == number).map(|(code, _, _)| *code)
    }
}

impl fmt::Display for IssueCode {
    fn fmt(&self, f: &mut fmt::Formatter<'_>) -> fmt::Result {
        f.write_str(self.as_str())
    }
}

/// A warning.
#[derive(Debug, Clone, PartialEq, Eq)]
pub struct Issue {
    /// How serious.
    pub severity: Severity,
    /// What about.
    pub code: IssueCode,
    /// The same in words: the original's text.
    pub message: String,
    /// The entity concerned.
    pub entity: EntityRef,
    /// Other entities involved.
    pub related: Vec<EntityRef>,
    /// Whether removing the entity mends it.
    pub fix: bool,
}

impl fmt::Display for Issue {
    fn fmt(&self, f: &mut fmt::Formatter<'_>) -> fmt::Result {
        write!(f, "{} [{}] {}: {}", self.severity, self.code, self.entity, self.message)
    }
}

/// A refusal of document 01, with its entity.
#[derive(Debug, Clone, Copy, PartialEq, Eq)]
pub struct Refusal {
    /// 1 to 11; 12 and 13 are a job's ([`JobRefused`]).
    pub number: u64,
    /// The entity that it names, if any.
    pub entity: Option<EntityRef>,
}

impl Refusal {
    /// The refusals' names, each at the place of its number; 0 is not one.
    pub const NAMES: [&'static str; 14] = [
        "accepted",
        "lane absent",
        "fraction outside (0, 1)",
        "position outside the lane",
        "a lane as its own partner",
        "not mergeable",
        "boundary absent",
        "no usable line",
        "boundary not crossing",
        "map not sound",
        "no room",
        "no ids left",
        "edit refused",
        "too many edits",
    ];

    /// Its name.
    pub fn name(self) -> &'static str {
        Self::NAMES[self.number as usize]
    }
}

/// Why an edit was refused, as the original says it. The map is as it was.
#[derive(Debug, Clone, PartialEq, Eq)]
pub enum EditError {
    /// An entity that was named is not there.
    NotFound {
        /// The entity.
        entity: EntityRef,
    },
    /// An argument is out of range or contradicts another.
    InvalidArgument {
        /// Its name.
        name: &'static str,
        /// Why.
        reason: String,
    },
    /// A line cannot be used for the edit.
    InvalidGeometry {
        /// Why.
        reason: String,
    },
    /// Two lanes cannot be merged.
    NotMergeable {
        /// The first.
        first: LaneId,
        /// The second.
        second: LaneId,
        /// Why.
        reason: String,
    },
    /// The map is not sound. The original does not test it.
    Unsound,
    /// The edited map would pass a limit. The original has none.
    NoRoom,
    /// No id is left. The original overflows.
    NoIds,
}

impl EditError {
    pub(crate) fn invalid(name: &'static str, reason: impl Into<String>) -> Self {
        EditError::InvalidArgument { name, reason: reason.into() }
    }

    pub(crate) fn geometry(reason: impl Into<String>) -> Self {
        EditError::InvalidGeometry { reason: reason.into() }
    }

    /// Its name in JSON.
    pub const fn code(&self) -> &'static str {
        match self {
            EditError::NotFound { .. } => "not_found",
            EditError::InvalidArgument { .. } => "invalid_argument",
            EditError::InvalidGeometry { .. } => "invalid_geometry",
            EditError::NotMergeable { .. } => "not_mergeable",
            EditError::Unsound => "unsound",
            EditError::NoRoom => "no_room",
            EditError::NoIds => "no_ids",
        }
    }
}

impl fmt::Display for EditError {
    fn fmt(&self, f: &mut fmt::Formatter<'_>) -> fmt::Result {
        match self {
            EditError::NotFound { entity } => write!(f, "{entity} does not exist"),
            EditError::InvalidArgument { name, reason } => write!(f, "invalid argument `{name}`: {reason}"),
            EditError::InvalidGeometry { reason } => write!(f, "invalid geometry: {reason}"),
            EditError::NotMergeable { first, second, reason } => {
                write!(f, "cannot merge {first} and {second}: {reason}")
            }
            EditError::Unsound => write!(f, "the map is not sound"),
            EditError::NoRoom => write!(f, "the edited map would pass a limit"),
            EditError::NoIds => write!(f, "no id is left for what the edit creates"),
        }
    }
}

impl std::error::Error for EditError {}

/// What an edit gives, as in the original.
pub type EditResult<T> = Result<T, EditError>;

/// A refused call: the refusal, and the original's error for it.
#[derive(Debug, Clone, PartialEq, Eq)]
pub struct Refused {
    /// Number and entity.
    pub refusal: Refusal,
    /// The same in words.
    pub error: EditError,
}

/// An accepted call.
#[derive(Debug, Clone, PartialEq, Eq)]
pub struct Done {
    /// The second half of the lane that was split.
    pub second: Option<LaneId>,
    /// What changed.
    pub changes: ChangeSet,
}

/// Why a job was refused. The map is as it was.
#[derive(Debug, Clone, PartialEq, Eq)]
pub enum JobRefused {
    /// It has more than [`MAX_EDITS`] edits.
    TooManyEdits,
    /// The map is not sound.
    Unsound,
    /// A list of the change set has no room. It is not given to a [`Map`](crate::Map), whose lists grow.
    NoRoom,
    /// An edit was refused.
    Edit {
        /// Its place in the job, from 1.
        place: usize,
        /// Its own refusal.
        refused: Refused,
    },
}

impl JobRefused {
    /// Its number: 9, 10, 12 or 13.
    pub const fn number(&self) -> u64 {
        match self {
            JobRefused::TooManyEdits => TOO_MANY_EDITS,
            JobRefused::Unsound => UNSOUND,
            JobRefused::NoRoom => NO_ROOM,
            JobRefused::Edit { .. } => EDIT_REFUSED,
        }
    }

    /// Its name.
    pub fn name(&self) -> &'static str {
        Refusal::NAMES[self.number() as usize]
    }

    /// The refused edit, its place and its own refusal.
    pub fn edit(&self) -> Option<(usize, &Refused)> {
        match self {
            JobRefused::Edit { place, refused } => Some((*place, refused)),
            _ => None,
        }
    }
}

impl fmt::Display for JobRefused {
    fn fmt(&self, f: &mut fmt::Formatter<'_>) -> fmt::Result {
        match self {
            JobRefused::TooManyEdits => write!(f, "a job has at most {MAX_EDITS} edits"),
            JobRefused::Unsound => write!(f, "{}", EditError::Unsound),
            JobRefused::NoRoom => write!(f, "a list of the change set has no room"),
            JobRefused::Edit { place, refused } => write!(f, "edit {place}: {}", refused.error),
        }
    }
}

impl std::error::Error for JobRefused {}
