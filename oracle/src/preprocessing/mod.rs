//! The filter. The original's `mod.rs` was not to be had: these lines only name its file.

// `is_reset` has callers only in the original's tests, which were not to be had.
#[allow(dead_code)]
mod dc_highpass;

pub use dc_highpass::{DcHighPassFilter, HighpassOrder, PreprocessingConfig, VadContext};
