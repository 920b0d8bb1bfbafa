//! Stand-ins for the commands on traffic features, which are left out.

use serde::{Deserialize, Serialize};

use super::{ChangeSet, EditResult};
use crate::geometry::Polyline3;
use crate::id::{BoundaryId, CrosswalkId, SignalId, StopLineId};
use crate::map::Map;

pub const DEFAULT_SIGNAL_ELEVATION: f64 = 0.0;
pub const DEFAULT_SIGNAL_HEIGHT: f64 = 0.0;
pub const DEFAULT_SIGNAL_WIDTH: f64 = 0.0;

macro_rules! empty {
    ($($name:ident)+) => {
        $(
            #[derive(Debug, Clone, PartialEq, Serialize, Deserialize)]
            pub struct $name;
        )+
    };
}

empty!(CrosswalkGeometry NewCrosswalk NewStopLine NewTrafficSignal StopLineChoice StopLinePlacement StopRule);

impl Map {
    pub fn add_stop_line(&mut self, _: NewStopLine) -> EditResult<(StopLineId, ChangeSet)> {
        unimplemented!()
    }

    pub fn add_traffic_signal(&mut self, _: NewTrafficSignal) -> EditResult<(SignalId, ChangeSet)> {
        unimplemented!()
    }

    pub fn add_crosswalk(&mut self, _: NewCrosswalk) -> EditResult<(CrosswalkId, ChangeSet)> {
        unimplemented!()
    }

    pub fn set_boundary_geometry(&mut self, _: BoundaryId, _: Polyline3) -> EditResult<ChangeSet> {
        unimplemented!()
    }
}
