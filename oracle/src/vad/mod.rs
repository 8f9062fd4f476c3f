//! The detector. The original's `mod.rs` was not to be had: these lines only name its files.

mod config;
// `open_segment` has a caller in the original's pipeline, which stays behind.
#[allow(dead_code)]
mod detector;
mod metrics;

pub use config::VadConfig;
pub use detector::{SpeechChunk, VadDetector};
pub use metrics::{NoopVadMetricsCollector, VadMetricsCollector, VadMetricsSnapshot, VadStats};
