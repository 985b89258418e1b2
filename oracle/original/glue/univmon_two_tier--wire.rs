// Takes the place of the original's univmon_two_tier/wire.rs (serialization). As a
// child module this reads private fields.
use super::UnivMonTwoTier;
use crate::OwnedDataInput;
use crate::sketch_framework::univmon::wire::update_mode_tag;

impl UnivMonTwoTier {
    pub fn oracle_mode(&self) -> u8 {
        update_mode_tag(self.update_mode)
    }

    pub fn oracle_flags(&self) -> &[bool] {
        &self.candidate_complete
    }

    pub fn oracle_logical(&self) -> (Vec<Vec<(OwnedDataInput, i64)>>, Vec<bool>) {
        self.logical_terminal_candidates()
    }
}
