//! Maps as text: one line an entity, words and numbers that people write and tools compare (docs/MAPS.md).
//!
//! Reading what was written gives the same map, bit for bit. Comments stay with the entity that they stand above or beside.
//!
//! ```
//! use voldrekka::text::Document;
//!
//! let yard = "voldrekka 1
//! boundary 101 line=0,2;10,2
//! boundary 102 line=0,-2;10,-2
//! lane 1 left=101 right=102   # the gate
//! ";
//! let document = Document::read(yard)?;
//! assert!(document.map.is_sound());
//! assert!(document.write().contains("lane 1 left=101 right=102 # the gate\n"));
//!
//! let wrong = Document::read("voldrekka 1\nlane 1 left=101 wright=102\n").unwrap_err();
//! assert_eq!(wrong.line, 2);
//! # Ok::<(), voldrekka::text::TextError>(())
//! ```

mod fields;
mod read;
mod write;

use std::collections::BTreeMap;
use std::fmt;

use crate::ids::{EntityKind, EntityRef};
use crate::map::Map;

/// The first word of a map, and the version of the form.
const HEAD: &str = "voldrekka 1";

/// The line that gives the next id.
const NEXT: &str = "next";

/// The word that begins an entity's line.
const ENTITIES: [(&str, EntityKind); 7] = [
    ("lane", EntityKind::Lane),
    ("boundary", EntityKind::Boundary),
    ("road", EntityKind::Road),
    ("junction", EntityKind::Junction),
    ("stop-line", EntityKind::StopLine),
    ("crosswalk", EntityKind::Crosswalk),
    ("rule", EntityKind::RegulatoryElement),
];

/// A line of a map that is not understood, and what was expected.
#[derive(Debug, Clone, PartialEq, Eq)]
pub struct TextError {
    /// The line, from 1.
    pub line: usize,
    /// What is wrong with it.
    pub message: String,
}

impl fmt::Display for TextError {
    fn fmt(&self, f: &mut fmt::Formatter<'_>) -> fmt::Result {
        write!(f, "line {}: {}", self.line, self.message)
    }
}

impl std::error::Error for TextError {}

/// The comments of an entity: blank lines and comment lines above it, and the comment beside it.
#[derive(Debug, Clone, PartialEq, Eq, Default)]
struct Notes {
    above: Vec<String>,
    beside: Option<String>,
}

/// A map with the comments of its text, and the lines on which its entities stand.
#[derive(Debug, Clone)]
pub struct Document {
    /// The map.
    pub map: Map,
    /// Comments above the head.
    head: Notes,
    /// Comments of the line that gives the next id.
    next: Notes,
    notes: BTreeMap<EntityRef, Notes>,
    /// Comments below the last entity.
    tail: Vec<String>,
    lines: BTreeMap<EntityRef, usize>,
}

impl Document {
    /// A map without comments.
    pub fn new(map: Map) -> Self {
        Self {
            map,
            head: Notes::default(),
            next: Notes::default(),
            notes: BTreeMap::new(),
            tail: Vec::new(),
            lines: BTreeMap::new(),
        }
    }

    /// The line of the text that was read on which an entity stands.
    pub fn line_of(&self, entity: EntityRef) -> Option<usize> {
        self.lines.get(&entity).copied()
    }
}
