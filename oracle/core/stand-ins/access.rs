//! What the driver must reach inside a `Map`: the raw counter and the raw links.

use crate::entities::Side;
use crate::id::LaneId;
use crate::map::Map;
use crate::topology::{LaneLinks, Neighbor};

pub fn counter(map: &Map) -> u64 {
    map.next_id
}

pub fn set_counter(map: &mut Map, counter: u64) {
    map.next_id = counter;
}

pub fn set_links(map: &mut Map, lane: LaneId, links: LaneLinks) {
    map.topology.insert_raw(lane, links);
}

/// Puts every link list in ascending order; says how many were not.
pub fn sort_links(map: &mut Map) -> usize {
    let mut sorted = 0;
    for links in map.topology.links.values_mut() {
        for list in [&mut links.predecessors, &mut links.successors] {
            if !list.is_sorted() {
                list.sort();
                sorted += 1;
            }
        }
    }
    sorted
}

/// A link, of a lane to itself too.
pub fn add_link(map: &mut Map, from: LaneId, to: LaneId) {
    map.topology.add_link(from, to);
}

/// A neighbour, of a lane to itself too.
pub fn set_neighbor(map: &mut Map, lane: LaneId, side: Side, neighbor: Option<Neighbor>) {
    map.topology.set_neighbor(lane, side, neighbor);
}
