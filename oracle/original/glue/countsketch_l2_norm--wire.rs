// Takes the place of the original's countsketch_l2_norm/wire.rs (serialization). As a
// child module this reads private fields and functions, so the parent file stays as it is.
use super::{CountSketchWithL2Norm, capped_square, clamp_to_i64};
use crate::SketchHasher;

impl<H: SketchHasher> CountSketchWithL2Norm<H> {
    pub fn oracle_row_norms(&self) -> &[i128] {
        self.row_l2_squared.as_slice()
    }
}

pub(crate) fn oracle_capped_square(counter: i64) -> i128 {
    capped_square(counter)
}

pub(crate) fn oracle_norm_read(norm: i128) -> f64 {
    // The conversion `l2_squared` makes of each row.
    clamp_to_i64(norm) as f64
}
