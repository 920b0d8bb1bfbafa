//! Stand-ins for the commands on roads, which are left out.

use serde::{Deserialize, Serialize};

use super::{ChangeSet, EditResult};
use crate::id::LaneId;
use crate::map::Map;

pub const TURN_THRESHOLD_DEG: f64 = 0.0;

macro_rules! empty {
    ($($name:ident)+) => {
        $(
            #[derive(Debug, Clone, PartialEq, Serialize, Deserialize)]
            pub struct $name;
        )+
    };
}

empty!(BuiltRoad LaneDirection NewConnector NewRoad RoadLane);

impl Map {
    pub fn build_road(&mut self, _: NewRoad) -> EditResult<(BuiltRoad, ChangeSet)> {
        unimplemented!()
    }

    pub fn add_connector(&mut self, _: NewConnector) -> EditResult<(LaneId, ChangeSet)> {
        unimplemented!()
    }
}
