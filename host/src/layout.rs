//! The layout of a map's tables, as numbers: rows, columns, commands, answers and limits. The names are those of include/voldrekka.h
//! without their prefix; tests/declarations.rs compares all of them with the header and with the definitions that the proofs cite.
#![allow(missing_docs)]

// ---- limits

pub const MAX_LANES: usize = 1024;
pub const MAX_BOUNDARIES: usize = 4096;
pub const MAX_ROADS: usize = 256;
pub const MAX_JUNCTIONS: usize = 256;
pub const MAX_RULES: usize = 512;
pub const MAX_STOP_LINES: usize = 512;
pub const MAX_CROSSWALKS: usize = 128;
pub const MAX_LINE_POINTS: usize = 256;
pub const MAX_POINTS: usize = 65_536;
pub const MAX_LINKS: usize = 16;
pub const MAX_IDS: usize = 64;
pub const MAX_COORDINATE: usize = 16_777_216;
pub const HANDLE_WIDTH: usize = 65_536;
pub const FEATURE_HANDLE_WIDTH: usize = 65_536;

// ---- rows: a table is a count and its rows; every row begins with its id

pub const ROW_COUNT: usize = 0;
pub const ROW_ID: usize = 0;
pub const LANE_WORDS: usize = 52;
pub const BOUNDARY_WORDS: usize = 5;
pub const ROAD_WORDS: usize = 68;
pub const JUNCTION_WORDS: usize = 69;
pub const RULE_WORDS: usize = 330;
pub const STOP_LINE_WORDS: usize = 4;
pub const CROSSWALK_WORDS: usize = 7;
pub const POINT_FLOATS: usize = 3;

// ---- columns

pub const LANE_KIND: usize = 1;
pub const LANE_LEFT: usize = 2;
pub const LANE_LEFT_REVERSED: usize = 3;
pub const LANE_RIGHT: usize = 4;
pub const LANE_RIGHT_REVERSED: usize = 5;
pub const LANE_CENTERLINE: usize = 6;
pub const LANE_CENTERLINE_START: usize = 7;
pub const LANE_CENTERLINE_SIZE: usize = 8;
pub const LANE_SPEED: usize = 9;
pub const LANE_SPEED_BITS: usize = 10;
pub const LANE_ONE_WAY: usize = 11;
pub const LANE_TURN: usize = 12;
pub const LANE_ATTRIBUTES: usize = 13;
pub const LEFT_SLOT: usize = 14;
pub const LEFT_SLOT_LANE: usize = 15;
pub const RIGHT_SLOT: usize = 16;
pub const RIGHT_SLOT_LANE: usize = 17;
pub const PREDECESSORS_AT: usize = 18;
pub const FIRST_PREDECESSOR: usize = 19;
pub const SUCCESSORS_AT: usize = 35;
pub const FIRST_SUCCESSOR: usize = 36;

pub const BOUNDARY_KIND: usize = 1;
pub const BOUNDARY_START: usize = 2;
pub const BOUNDARY_SIZE: usize = 3;
pub const BOUNDARY_ATTRIBUTES: usize = 4;

pub const ROAD_NAME: usize = 1;
pub const ROAD_ATTRIBUTES: usize = 2;
pub const ROAD_LANES_AT: usize = 3;
pub const ROAD_FIRST_LANE: usize = 4;

pub const JUNCTION_NAME: usize = 1;
pub const JUNCTION_OUTLINE: usize = 2;
pub const JUNCTION_ATTRIBUTES: usize = 3;
pub const JUNCTION_LANES_AT: usize = 4;
pub const JUNCTION_FIRST_LANE: usize = 5;

pub const RULE_KIND: usize = 1;
pub const RULE_CONTENT: usize = 2;
pub const RULE_ATTRIBUTES: usize = 3;
pub const RULE_CROSSWALK: usize = 4;
pub const RULE_LANES_AT: usize = 5;
pub const RULE_FIRST_LANE: usize = 6;
pub const RULE_CONTROLLED_AT: usize = 70;
pub const RULE_FIRST_CONTROLLED: usize = 71;
pub const RULE_STOP_LINES_AT: usize = 135;
pub const RULE_PRIORITY_AT: usize = 200;
pub const RULE_YIELDING_AT: usize = 265;

pub const STOP_LINE_START: usize = 1;
pub const STOP_LINE_SIZE: usize = 2;
pub const STOP_LINE_ATTRIBUTES: usize = 3;

pub const CROSSWALK_LEFT_START: usize = 1;
pub const CROSSWALK_LEFT_SIZE: usize = 2;
pub const CROSSWALK_RIGHT_START: usize = 3;
pub const CROSSWALK_RIGHT_SIZE: usize = 4;
pub const CROSSWALK_OUTLINE: usize = 5;
pub const CROSSWALK_ATTRIBUTES: usize = 6;

// ---- kinds: the others are the places of the variants of `records`

pub const LAST_LANE_KIND: u64 = 7;
pub const LAST_TURN: u64 = 3;
pub const LAST_BOUNDARY_KIND: u64 = 13;
pub const LAST_RULE_KIND: u64 = 5;
pub const NEIGHBOR_NONE: u64 = 0;
pub const NEIGHBOR_SAME: u64 = 1;
pub const NEIGHBOR_OPPOSITE: u64 = 2;
pub const TRAFFIC_LIGHT: u64 = 0;
pub const TRAFFIC_SIGN: u64 = 1;
pub const STOP_LINE_RULE: u64 = 2;
pub const RIGHT_OF_WAY: u64 = 3;
pub const CROSSWALK_RULE: u64 = 4;
pub const OTHER_RULE: u64 = 5;

// ---- commands

pub const SPLIT: u64 = 0;
pub const MERGE: u64 = 1;
pub const CONNECT: u64 = 2;
pub const DISCONNECT: u64 = 3;
pub const SET_NEIGHBOR: u64 = 4;
pub const REMOVE: u64 = 5;
pub const FRACTION: u64 = 0;
pub const STATION: u64 = 1;
pub const LEFT: u64 = 0;
pub const RIGHT: u64 = 1;
pub const COMMAND_WORDS: usize = 5;
pub const MAX_EDITS: usize = 64;

// ---- answers

pub const MADE: u64 = 0;
pub const ACCEPTED: u64 = 0;
pub const LANE_ABSENT: u64 = 1;
pub const FRACTION_OUTSIDE: u64 = 2;
pub const POSITION_OUTSIDE: u64 = 3;
pub const OWN_PARTNER: u64 = 4;
pub const NOT_MERGEABLE: u64 = 5;
pub const BOUNDARY_ABSENT: u64 = 6;
pub const NO_USABLE_LINE: u64 = 7;
pub const NOT_CROSSING: u64 = 8;
pub const UNSOUND: u64 = 9;
pub const NO_ROOM: u64 = 10;
pub const NO_IDS: u64 = 11;
pub const EDIT_REFUSED: u64 = 12;
pub const TOO_MANY_EDITS: u64 = 13;

pub const CODE_NO_OP: u64 = 1;
pub const CODE_GEOMETRIC_GAP: u64 = 2;
pub const CODE_BOUNDARY_UNSHARED: u64 = 3;
pub const CODE_NEIGHBOR_DROPPED: u64 = 4;
pub const CODE_ORPHAN_RULE: u64 = 5;
pub const CODE_ATTRIBUTE_CONFLICT: u64 = 8;

pub const PAIR_WORDS: usize = 2;
pub const WARNING_SEVERITY: usize = 0;
pub const WARNING_CODE: usize = 1;
pub const WARNING_ENTITY_KIND: usize = 2;
pub const WARNING_ENTITY_ID: usize = 3;
pub const WARNING_RELATED_AT: usize = 4;
pub const WARNING_FIRST_RELATED: usize = 5;
pub const WARNING_FIX: usize = 9;
pub const WARNING_WORDS: usize = 10;

// ---- room with which 10 is given for a limit alone; the header says why it is enough

pub const MAX_CREATED: usize = MAX_LANES / 2 + 2 * MAX_LANES;
pub const MAX_MODIFIED: usize = MAX_LANES + MAX_BOUNDARIES + MAX_ROADS + MAX_JUNCTIONS + MAX_RULES;
pub const MAX_DELETED: usize = 5;
pub const MAX_WARNINGS: usize = 2 * MAX_LANES;
pub const MAX_JOB_CREATED: usize = MAX_LANES + MAX_BOUNDARIES;
pub const MAX_JOB_DELETED: usize = MAX_LANES + MAX_BOUNDARIES;
pub const MAX_JOB_WARNINGS: usize = MAX_EDITS * MAX_WARNINGS;
