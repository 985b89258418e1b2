//! Takes the place of the original's common/mod.rs: only the modules that the oracle needs.
pub mod hash;
pub mod heap;
pub mod input;
pub mod precompute_sample;
pub mod structure_utils;
pub mod structures;

pub use hash::*;
pub use heap::{HeapCount, HeapCounter, TopKHeap};
pub use input::*;
pub use precompute_sample::LN_ONE_MINUS_U_TABLE;
pub use structure_utils::*;
pub use structures::*;
