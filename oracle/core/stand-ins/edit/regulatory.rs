//! Stand-in for the command on rules, which is left out.

use super::{ChangeSet, EditResult};
use crate::id::{CrosswalkId, LaneId, RegulatoryElementId, StopLineId};
use crate::map::Map;

impl Map {
    pub fn set_regulatory_links(
        &mut self,
        _: RegulatoryElementId,
        _: &[LaneId],
        _: &[CrosswalkId],
        _: &[StopLineId],
    ) -> EditResult<ChangeSet> {
        unimplemented!()
    }
}
