//! Takes the place of the original's common/structures/mod.rs: only the modules that the oracle needs.
pub mod fixed_structure;
pub mod heap;
pub mod matrix_storage;
pub mod vector1d;
pub mod vector2d;

pub use heap::{CommonHeap, CommonHeapOrder, RetainLargest, RetainSmallest};
pub use matrix_storage::{FastPathHasher, MatrixFastHash, MatrixHash, MatrixStorage};
pub use vector1d::Vector1D;
pub use vector2d::Vector2D;
