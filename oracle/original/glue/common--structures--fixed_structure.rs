//! Stub with made-up values; only `CountSketchWithL2Norm::default()` reads them, which
//! nothing in the oracle calls.
pub const DEFAULT_ROWS: usize = 3;
pub const DEFAULT_COLS: usize = 4096;
