//! Takes the place of the original's lib.rs: only the modules that the oracle needs.
#![allow(dead_code, unused_imports)]

pub mod analytics {
    pub mod ops;
}
pub mod common;
pub mod oracle_glue;
pub mod sketch_framework {
    pub mod univmon;
    pub mod univmon_two_tier;
}
pub mod sketches {
    pub mod countsketch_l2_norm;
    pub mod octo_delta;
}

pub use common::*;
pub use sketch_framework::univmon::{UNIVMON_MAX_LAYERS, UnivMon, UnivMonDeltaFidelity, UnivMonPool};
pub use sketch_framework::univmon_two_tier::UnivMonTwoTier;
pub use sketches::countsketch_l2_norm::CountSketchWithL2Norm;
pub use sketches::octo_delta;
