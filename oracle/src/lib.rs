//! The original, in a cage: five files of dnvt/speech-prep at commit ee1bcab34f, byte for byte (`SHA256SUMS` lists them), and the least around
//! them that makes them compile. This file, `error.rs`, the two `mod.rs` and `probe.rs` are ours.

pub mod error;
pub mod preprocessing;
pub mod probe;
pub mod time;
pub mod vad;

pub use error::{Error, Result};
pub use time::{AudioDuration, AudioTimestamp};
pub use vad::{SpeechChunk, VadConfig, VadDetector};
