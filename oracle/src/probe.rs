//! What a comparison reads of the original and its public face does not show: the two positions that are private to the original's crate, and
//! the counts and the noise floor of a call, which it hands only to a metrics collector.

use std::sync::{Arc, Mutex, PoisonError};

use crate::error::Result;
use crate::time::AudioTimestamp;
use crate::vad::{
    SpeechChunk, VadConfig, VadDetector, VadMetricsCollector, VadMetricsSnapshot, VadStats,
};

/// What one call of the original answered.
#[derive(Debug, Clone)]
pub struct Answer {
    pub segments: Vec<SpeechChunk>,
    pub stats: VadStats,
    pub noise_floor: f32,
}

/// The original detector, with its positions and its counts in sight.
pub struct Probe {
    detector: VadDetector,
    latest: Arc<Latest>,
}

#[derive(Default)]
struct Latest(Mutex<Option<VadMetricsSnapshot>>);

impl VadMetricsCollector for Latest {
    fn record_vad_metrics(&self, snapshot: &VadMetricsSnapshot) {
        *self.0.lock().unwrap_or_else(PoisonError::into_inner) = Some(*snapshot);
    }
}

impl Probe {
    /// Opens the original detector with `config`.
    pub fn open(config: VadConfig) -> Result<Self> {
        let latest = Arc::new(Latest::default());
        let detector = VadDetector::with_metrics(config, latest.clone())?;
        Ok(Self { detector, latest })
    }

    /// The next block of samples.
    pub fn detect(&self, samples: &[f32]) -> Result<Answer> {
        let segments = self.detector.detect(samples)?;
        Ok(self.answer(segments))
    }

    /// The end of the stream.
    pub fn flush(&self) -> Result<Answer> {
        let segments = self.detector.flush()?;
        Ok(self.answer(segments))
    }

    /// A new stream that starts at `start`.
    pub fn reset(&mut self, start: AudioTimestamp) {
        self.detector.reset(start);
    }

    /// `VadDetector::undecided_from`, private in the original.
    #[must_use]
    pub fn undecided_from(&self) -> usize {
        self.detector.undecided_from()
    }

    /// `VadDetector::analyzed_until`, private in the original.
    #[must_use]
    pub fn analyzed_until(&self) -> usize {
        self.detector.analyzed_until()
    }

    /// Where the open segment starts, if there is one.
    #[must_use]
    pub fn open_start(&self) -> Option<usize> {
        self.detector.active_segment_start_sample()
    }

    fn answer(&self, segments: Vec<SpeechChunk>) -> Answer {
        let latest = self.latest.0.lock().unwrap_or_else(PoisonError::into_inner);
        // `run` records before it returns, so a call that answered has left its snapshot.
        let snapshot = latest.expect("the original records a snapshot at each call");
        Answer {
            segments,
            stats: snapshot.stats,
            noise_floor: snapshot.noise_floor,
        }
    }
}
