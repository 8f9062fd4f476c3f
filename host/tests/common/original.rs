//! The original's expressions for what it keeps to itself.

use std::time::Duration;

/// `VadDetector::with_metrics` in the original, and 0.3 s for its `WARMUP`.
pub fn warmup_frames(hop_length: usize, sample_rate: u32) -> usize {
    let hop_secs = hop_length as f64 / f64::from(sample_rate);
    (Duration::from_millis(300).as_secs_f64() / hop_secs)
        .ceil()
        .max(1.0) as usize
}

/// As there.
pub fn padding_samples(speech_padding: Duration, sample_rate: u32) -> usize {
    (speech_padding.as_secs_f64() * f64::from(sample_rate)).round() as usize
}
