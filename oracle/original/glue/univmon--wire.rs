// Takes the place of the original's univmon/wire.rs. build.sh puts `check_layers`,
// `check_univmon_dimensions` and `update_mode_tag` below, cut unchanged from that
// file; the rest of it (serialization) is left out. As a child module this reads
// private fields without touching univmon.rs.
use super::{UNIVMON_MAX_LAYERS, UnivMon, UnivMonUpdateMode};
use crate::OwnedDataInput;

impl UnivMon {
    pub fn oracle_mode(&self) -> u8 {
        update_mode_tag(self.update_mode)
    }

    pub fn oracle_logical(&self) -> (Vec<Vec<(OwnedDataInput, i64)>>, Vec<bool>) {
        self.logical_terminal_candidates()
    }
}
