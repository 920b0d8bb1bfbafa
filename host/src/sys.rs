//! The library's functions on slices, and the only `unsafe` of the crate.
//!
//! What each function promises is proved of it for any contents of any lengths, so that the wrappers ask nothing of what they are
//! lent. Rust's own rules give what is left: slices lent `&mut` overlap nothing, and nobody else touches them during the call. Two things
//! stay with the caller: stack ([`STACK`]) and the thread's floating-point state ([`float_state`]).

use std::hint::black_box;

/// Whether the library that is linked is the proved one; `false` of a build with the library of host/unproved.
pub const PROVED: bool = option_env!("VOLDREKKA_UNPROVED").is_none();

/// Stack to have free at a call of [`apply`] or [`job`], in bytes: what it takes at most, and as much again.
pub const STACK: usize = 8 * 1024 * 1024;

/// How many tables of words a map has.
pub const TABLES: usize = 7;

/// The next id (`voldrekka_counter` of the header).
#[repr(C)]
#[derive(Debug, Clone, Copy, PartialEq, Eq, Default)]
pub struct Counter {
    /// 0 counts as 1; at 2^64 − 1 none is left.
    pub next: u64,
}

/// The answer to a command (`voldrekka_answer` of the header).
#[repr(C)]
#[derive(Debug, Clone, Copy, PartialEq, Eq, Default)]
pub struct Answer {
    /// 0 accepted, 1 to 11 the refusal.
    pub number: u64,
    /// The refusal's entity: its kind + 1, or 0.
    pub kind: u64,
    /// Its id, or 0.
    pub id: u64,
    /// How many pairs were written to `created`.
    pub created: u64,
    /// How many pairs were written to `modified`.
    pub modified: u64,
    /// How many pairs were written to `deleted`.
    pub deleted: u64,
    /// How many rows were written to `warnings`.
    pub warnings: u64,
    /// The second half of the lane that was split, or 0.
    pub second: u64,
    /// The next id, as the counter has it after the call.
    pub counter: u64,
}

/// The answer to a job (`voldrekka_job_answer` of the header).
#[repr(C)]
#[derive(Debug, Clone, Copy, PartialEq, Eq, Default)]
pub struct JobAnswer {
    /// 0 made, else the refusal: 9, 10, 12 or 13.
    pub number: u64,
    /// The place of the refused edit, from 1, or 0.
    pub place: u64,
    /// That edit's own number, or 0.
    pub own: u64,
    /// The entity that it names: its kind + 1, or 0.
    pub kind: u64,
    /// Its id, or 0.
    pub id: u64,
    /// How many pairs were written to `created`.
    pub created: u64,
    /// How many pairs were written to `modified`.
    pub modified: u64,
    /// How many pairs were written to `deleted`.
    pub deleted: u64,
    /// How many rows were written to `warnings`.
    pub warnings: u64,
    /// The next id, as the counter has it after the call.
    pub counter: u64,
}

/// Why a map is not sound (`voldrekka_flaw` of the header).
#[repr(C)]
#[derive(Debug, Clone, Copy, PartialEq, Eq, Default)]
pub struct Flaw {
    /// 0 sound, else the clause that fails first.
    pub clause: u64,
    /// In which table, in the order in which they are lent; behind them come the coordinates.
    pub table: u64,
    /// At which row, from 0.
    pub row: u64,
}

unsafe extern "C" {
    /// The IEEE 754-2019 square root of any double.
    pub safe fn voldrekka_sqrt(x: f64) -> f64;

    fn voldrekka_length(line: *const f64, line_len: usize) -> f64;

    fn voldrekka_nearest_point(
        line: *const f64,
        line_len: usize,
        x: f64,
        y: f64,
        out: *mut f64,
        out_len: usize,
    ) -> usize;

    fn voldrekka_split_at(
        line: *const f64,
        line_len: usize,
        station: f64,
        out: *mut f64,
        out_len: usize,
        second: *mut usize,
    ) -> usize;

    fn voldrekka_sound(
        counter: u64,
        lanes: *const u64,
        lanes_len: usize,
        boundaries: *const u64,
        boundaries_len: usize,
        roads: *const u64,
        roads_len: usize,
        junctions: *const u64,
        junctions_len: usize,
        rules: *const u64,
        rules_len: usize,
        stop_lines: *const u64,
        stop_lines_len: usize,
        crosswalks: *const u64,
        crosswalks_len: usize,
        coordinates: *const f64,
        coordinates_len: usize,
    ) -> bool;

    fn voldrekka_fault(
        counter: u64,
        lanes: *const u64,
        lanes_len: usize,
        boundaries: *const u64,
        boundaries_len: usize,
        roads: *const u64,
        roads_len: usize,
        junctions: *const u64,
        junctions_len: usize,
        rules: *const u64,
        rules_len: usize,
        stop_lines: *const u64,
        stop_lines_len: usize,
        crosswalks: *const u64,
        crosswalks_len: usize,
        coordinates: *const f64,
        coordinates_len: usize,
    ) -> Flaw;

    fn voldrekka_apply(
        counter: *mut Counter,
        lanes: *mut u64,
        lanes_len: usize,
        boundaries: *mut u64,
        boundaries_len: usize,
        roads: *mut u64,
        roads_len: usize,
        junctions: *mut u64,
        junctions_len: usize,
        rules: *mut u64,
        rules_len: usize,
        stop_lines: *mut u64,
        stop_lines_len: usize,
        crosswalks: *mut u64,
        crosswalks_len: usize,
        coordinates: *mut f64,
        coordinates_len: usize,
        command: *const u64,
        command_len: usize,
        created: *mut u64,
        created_len: usize,
        modified: *mut u64,
        modified_len: usize,
        deleted: *mut u64,
        deleted_len: usize,
        warnings: *mut u64,
        warnings_len: usize,
    ) -> Answer;

    fn voldrekka_job(
        counter: *mut u64,
        lanes: *mut u64,
        lanes_len: usize,
        boundaries: *mut u64,
        boundaries_len: usize,
        roads: *mut u64,
        roads_len: usize,
        junctions: *mut u64,
        junctions_len: usize,
        rules: *mut u64,
        rules_len: usize,
        stop_lines: *mut u64,
        stop_lines_len: usize,
        crosswalks: *mut u64,
        crosswalks_len: usize,
        coordinates: *mut f64,
        coordinates_len: usize,
        commands: *const u64,
        commands_len: usize,
        old_lanes: *mut u64,
        old_lanes_len: usize,
        old_boundaries: *mut u64,
        old_boundaries_len: usize,
        old_roads: *mut u64,
        old_roads_len: usize,
        old_junctions: *mut u64,
        old_junctions_len: usize,
        old_rules: *mut u64,
        old_rules_len: usize,
        old_stop_lines: *mut u64,
        old_stop_lines_len: usize,
        old_crosswalks: *mut u64,
        old_crosswalks_len: usize,
        old_coordinates: *mut f64,
        old_coordinates_len: usize,
        created: *mut u64,
        created_len: usize,
        modified: *mut u64,
        modified_len: usize,
        deleted: *mut u64,
        deleted_len: usize,
        warnings: *mut u64,
        warnings_len: usize,
    ) -> JobAnswer;
}

/// The length of a line of three coordinates a point.
#[inline]
pub fn length(line: &[f64]) -> f64 {
    unsafe { voldrekka_length(line.as_ptr(), line.len()) }
}

/// The segment of the point nearest (x, y) in the plane; its x, y, z, distance and station go to `out`, if there are five places and
/// the line has a point.
#[inline]
pub fn nearest_point(line: &[f64], x: f64, y: f64, out: &mut [f64]) -> usize {
    unsafe { voldrekka_nearest_point(line.as_ptr(), line.len(), x, y, out.as_mut_ptr(), out.len()) }
}

/// Both pieces of a line cut at a station, one behind the other in `out`; how many points the first has, and in `second` how many the
/// second has. Without room for both it answers 0 and writes nothing.
#[inline]
pub fn split_at(line: &[f64], station: f64, out: &mut [f64], second: &mut usize) -> usize {
    unsafe { voldrekka_split_at(line.as_ptr(), line.len(), station, out.as_mut_ptr(), out.len(), second) }
}

/// Whether a map is sound: its next id, its tables (lanes, boundaries, roads, junctions, rules, stop lines, crosswalks) and its coordinates.
#[inline]
pub fn sound(counter: u64, tables: [&[u64]; TABLES], coordinates: &[f64]) -> bool {
    let [lanes, boundaries, roads, junctions, rules, stop_lines, crosswalks] = tables;
    unsafe {
        voldrekka_sound(
            counter,
            lanes.as_ptr(),
            lanes.len(),
            boundaries.as_ptr(),
            boundaries.len(),
            roads.as_ptr(),
            roads.len(),
            junctions.as_ptr(),
            junctions.len(),
            rules.as_ptr(),
            rules.len(),
            stop_lines.as_ptr(),
            stop_lines.len(),
            crosswalks.as_ptr(),
            crosswalks.len(),
            coordinates.as_ptr(),
            coordinates.len(),
        )
    }
}

/// Which clause of soundness fails first, and where; clause 0 of a sound map.
#[inline]
pub fn fault(counter: u64, tables: [&[u64]; TABLES], coordinates: &[f64]) -> Flaw {
    let [lanes, boundaries, roads, junctions, rules, stop_lines, crosswalks] = tables;
    unsafe {
        voldrekka_fault(
            counter,
            lanes.as_ptr(),
            lanes.len(),
            boundaries.as_ptr(),
            boundaries.len(),
            roads.as_ptr(),
            roads.len(),
            junctions.as_ptr(),
            junctions.len(),
            rules.as_ptr(),
            rules.len(),
            stop_lines.as_ptr(),
            stop_lines.len(),
            crosswalks.as_ptr(),
            crosswalks.len(),
            coordinates.as_ptr(),
            coordinates.len(),
        )
    }
}

/// Makes a command on a map, or refuses it and leaves all that is lent alone. The lists are created, modified, deleted and warnings. The thread needs
/// [`STACK`] bytes of stack.
#[inline]
pub fn apply(
    counter: &mut u64,
    tables: [&mut [u64]; TABLES],
    coordinates: &mut [f64],
    command: &[u64],
    lists: [&mut [u64]; 4],
) -> Answer {
    let [lanes, boundaries, roads, junctions, rules, stop_lines, crosswalks] = tables;
    let [created, modified, deleted, warnings] = lists;
    let mut lent = Counter { next: *counter };
    let answer = unsafe {
        voldrekka_apply(
            &mut lent,
            lanes.as_mut_ptr(),
            lanes.len(),
            boundaries.as_mut_ptr(),
            boundaries.len(),
            roads.as_mut_ptr(),
            roads.len(),
            junctions.as_mut_ptr(),
            junctions.len(),
            rules.as_mut_ptr(),
            rules.len(),
            stop_lines.as_mut_ptr(),
            stop_lines.len(),
            crosswalks.as_mut_ptr(),
            crosswalks.len(),
            coordinates.as_mut_ptr(),
            coordinates.len(),
            command.as_ptr(),
            command.len(),
            created.as_mut_ptr(),
            created.len(),
            modified.as_mut_ptr(),
            modified.len(),
            deleted.as_mut_ptr(),
            deleted.len(),
            warnings.as_mut_ptr(),
            warnings.len(),
        )
    };
    *counter = lent.next;
    answer
}

/// Makes a job of up to 64 commands, five words each, all of them or none. The area's slices, once none is shorter than the map's, begin with the
/// map as it came, made or not; a refused job leaves all else alone. The thread needs [`STACK`] bytes of stack.
#[inline]
pub fn job(
    counter: &mut u64,
    tables: [&mut [u64]; TABLES],
    coordinates: &mut [f64],
    commands: &[u64],
    area: [&mut [u64]; TABLES],
    old_coordinates: &mut [f64],
    lists: [&mut [u64]; 4],
) -> JobAnswer {
    let [lanes, boundaries, roads, junctions, rules, stop_lines, crosswalks] = tables;
    let [old_lanes, old_boundaries, old_roads, old_junctions, old_rules, old_stop_lines, old_crosswalks] = area;
    let [created, modified, deleted, warnings] = lists;
    unsafe {
        voldrekka_job(
            counter,
            lanes.as_mut_ptr(),
            lanes.len(),
            boundaries.as_mut_ptr(),
            boundaries.len(),
            roads.as_mut_ptr(),
            roads.len(),
            junctions.as_mut_ptr(),
            junctions.len(),
            rules.as_mut_ptr(),
            rules.len(),
            stop_lines.as_mut_ptr(),
            stop_lines.len(),
            crosswalks.as_mut_ptr(),
            crosswalks.len(),
            coordinates.as_mut_ptr(),
            coordinates.len(),
            commands.as_ptr(),
            commands.len(),
            old_lanes.as_mut_ptr(),
            old_lanes.len(),
            old_boundaries.as_mut_ptr(),
            old_boundaries.len(),
            old_roads.as_mut_ptr(),
            old_roads.len(),
            old_junctions.as_mut_ptr(),
            old_junctions.len(),
            old_rules.as_mut_ptr(),
            old_rules.len(),
            old_stop_lines.as_mut_ptr(),
            old_stop_lines.len(),
            old_crosswalks.as_mut_ptr(),
            old_crosswalks.len(),
            old_coordinates.as_mut_ptr(),
            old_coordinates.len(),
            created.as_mut_ptr(),
            created.len(),
            modified.as_mut_ptr(),
            modified.len(),
            deleted.as_mut_ptr(),
            deleted.len(),
            warnings.as_mut_ptr(),
            warnings.len(),
        )
    }
}

/// Whether this thread's floating-point state is the one assumed: subnormals in and out are kept, and rounding is to nearest. A
/// program linked with `-ffast-math` has another.
pub fn float_state() -> bool {
    let least = black_box(f64::from_bits(1));
    let half = black_box(f64::MIN_POSITIVE) * 0.5;
    let quarter = black_box(f64::EPSILON / 4.0);
    let one = black_box(1.0);
    black_box(least + least) > least
        && black_box(half) > 0.0
        && black_box(one + quarter) == one
        && black_box(one + 3.0 * quarter) == 1.0 + f64::EPSILON
}
