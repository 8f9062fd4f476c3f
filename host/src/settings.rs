//! The detector's settings.

use std::time::Duration;

use crate::raw;
use crate::refusal::Refusal;

/// Settings of the voice detector. The names and the defaults are the original's.
///
/// ```
/// use fallowcart::VadConfig;
///
/// // A noisy room: ask for a stronger signal, and put up with longer pauses.
/// let noisy = VadConfig { activation_ratio: 3.5, hangover_frames: 30, ..VadConfig::default() };
/// assert_eq!(noisy.validate(), Ok(()));
///
/// let loose = VadConfig { activation_ratio: 1.0, ..VadConfig::default() };
/// assert_eq!(loose.validate().unwrap_err().number(), 6);
/// ```
#[derive(Debug, Clone, Copy, PartialEq)]
pub struct VadConfig {
    /// Sample rate in Hz, 8,000 to 48,000.
    pub sample_rate: u32,
    /// Length of a frame, above 0 and at most 1 s.
    pub frame_duration: Duration,
    /// Overlap of neighbouring frames, in [0, 1).
    pub frame_overlap: f32,
    /// The a of `y[n] = x[n] - a * x[n-1]`, in [0, 1), or none.
    pub pre_emphasis: Option<f32>,
    /// How many times louder than the noise floor a frame must be to start a segment, at least the release ratio.
    pub activation_ratio: f32,
    /// How many times louder than the noise floor a frame must be to count as speech inside a segment, at least 1.
    pub release_ratio: f32,
    /// Frames of less energy, which is a root mean square, are never speech.
    pub min_speech_energy: f32,
    /// Smoothing of the noise floor during silence, in [0, 1).
    pub noise_smoothing: f32,
    /// The noise floor's lower bound, above 0.
    pub energy_floor: f32,
    /// Quiet frames that a segment lives through, at most 10,000.
    pub hangover_frames: usize,
    /// Sound added before and after each segment, at most 1 s.
    pub speech_padding: Duration,
    /// Speech frames of a segment that is reported, 1 to 10,000.
    pub min_speech_frames: usize,
    /// When the first sample is, in nanoseconds, below 2^63.
    pub stream_start_time: u64,
}

impl Default for VadConfig {
    fn default() -> Self {
        Self {
            sample_rate: 16_000,
            frame_duration: Duration::from_millis(20),
            frame_overlap: 0.5,
            pre_emphasis: Some(0.97),
            activation_ratio: 2.5,
            release_ratio: 1.3,
            min_speech_energy: 0.0005,
            noise_smoothing: 0.85,
            energy_floor: 1e-4,
            hangover_frames: 20,
            speech_padding: Duration::from_millis(50),
            min_speech_frames: 3,
            stream_start_time: 0,
        }
    }
}

/// Time constant for raising the noise floor during speech.
const SPEECH_FLOOR_RISE_TAU_SECS: f64 = 5.0;

/// This formula and the rise weight's are those of the original's `detector.rs`, under its licence (NOTICE).
fn hann_window(length: usize) -> Vec<f32> {
    if length == 1 {
        return vec![1.0];
    }
    let denom = (length - 1) as f32;
    (0..length)
        .map(|n| {
            let angle = 2.0 * std::f32::consts::PI * n as f32 / denom;
            0.5f32.mul_add(-angle.cos(), 0.5)
        })
        .collect()
}

/// Too long for the door's word is too long for the library, so the largest word stands for it.
fn nanos(duration: Duration) -> u64 {
    u64::try_from(duration.as_nanos()).unwrap_or(u64::MAX)
}

/// The settings as the door takes them.
impl From<VadConfig> for raw::Settings {
    fn from(config: VadConfig) -> raw::Settings {
        raw::Settings {
            sample_rate: config.sample_rate,
            frame_duration: nanos(config.frame_duration),
            frame_overlap: config.frame_overlap,
            has_pre_emphasis: config.pre_emphasis.is_some(),
            pre_emphasis: config.pre_emphasis.unwrap_or(0.0),
            activation_ratio: config.activation_ratio,
            release_ratio: config.release_ratio,
            min_speech_energy: config.min_speech_energy,
            noise_smoothing: config.noise_smoothing,
            energy_floor: config.energy_floor,
            hangover_frames: config.hangover_frames as u64,
            speech_padding: nanos(config.speech_padding),
            min_speech_frames: config.min_speech_frames as u64,
            stream_start_time: config.stream_start_time,
        }
    }
}

/// Each number that follows from the settings is answered where the settings are accepted.
impl VadConfig {
    /// Checks the settings.
    ///
    /// # Errors
    ///
    /// The first of refusals 1 to 13 that is met.
    pub fn validate(&self) -> Result<(), Refusal> {
        let number = raw::settings_refusal(&(*self).into());
        Refusal::check(u64::from(number)).map(|_| ())
    }

    /// Samples of a frame.
    ///
    /// # Errors
    ///
    /// Where [`validate`](Self::validate) refuses.
    ///
    /// ```
    /// assert_eq!(fallowcart::VadConfig::default().frame_length_samples(), Ok(320));
    /// ```
    pub fn frame_length_samples(&self) -> Result<usize, Refusal> {
        self.validate()?;
        let length = raw::frame_length(self.sample_rate, nanos(self.frame_duration));
        Ok(length as usize)
    }

    /// Samples from one frame's start to the next one's.
    ///
    /// # Errors
    ///
    /// Where [`validate`](Self::validate) refuses.
    ///
    /// ```
    /// assert_eq!(fallowcart::VadConfig::default().hop_length_samples(), Ok(160));
    /// ```
    pub fn hop_length_samples(&self) -> Result<usize, Refusal> {
        let length = self.frame_length_samples()? as u64;
        Ok(raw::hop_length(length, self.frame_overlap) as usize)
    }

    /// Frames that are held back at the start to find the noise floor.
    ///
    /// # Errors
    ///
    /// Where [`validate`](Self::validate) refuses.
    ///
    /// ```
    /// assert_eq!(fallowcart::VadConfig::default().warmup_frames(), Ok(30));
    /// ```
    pub fn warmup_frames(&self) -> Result<usize, Refusal> {
        let hop = self.hop_length_samples()? as u64;
        Ok(raw::warmup_frames(hop, self.sample_rate) as usize)
    }

    /// Samples added before and after each segment.
    ///
    /// # Errors
    ///
    /// Where [`validate`](Self::validate) refuses.
    ///
    /// ```
    /// assert_eq!(fallowcart::VadConfig::default().padding_samples(), Ok(800));
    /// ```
    pub fn padding_samples(&self) -> Result<usize, Refusal> {
        self.validate()?;
        let samples = raw::padding_samples(nanos(self.speech_padding), self.sample_rate);
        Ok(samples as usize)
    }

    /// The Hann window by the original's formula, a frame long. It rests on the C library's cosine, so its last digits may depend on the machine; the
    /// detector keeps the window that it was opened with.
    ///
    /// # Errors
    ///
    /// Where [`validate`](Self::validate) refuses.
    ///
    /// ```
    /// let window = fallowcart::VadConfig::default().window().unwrap();
    /// assert_eq!((window.len(), window[0]), (320, 0.0));
    /// ```
    pub fn window(&self) -> Result<Vec<f32>, Refusal> {
        Ok(hann_window(self.frame_length_samples()?))
    }

    /// The weight that raises the noise floor during speech, by the original's formula, which rests on the C library's exponential.
    ///
    /// # Errors
    ///
    /// Where [`validate`](Self::validate) refuses.
    ///
    /// ```
    /// let rise = fallowcart::VadConfig::default().speech_floor_rise().unwrap();
    /// assert!((0.997..0.999).contains(&rise));
    /// ```
    pub fn speech_floor_rise(&self) -> Result<f32, Refusal> {
        let hop_secs = self.hop_length_samples()? as f64 / f64::from(self.sample_rate);
        Ok((-hop_secs / SPEECH_FLOOR_RISE_TAU_SECS).exp() as f32)
    }

    /// When a sample is, in nanoseconds. `None` where [`validate`](Self::validate) refuses, and above sample 2^40, where no stream goes.
    ///
    /// ```
    /// assert_eq!(fallowcart::VadConfig::default().time_of_sample(16_000), Some(1_000_000_000));
    /// ```
    pub fn time_of_sample(&self, sample: u64) -> Option<u64> {
        self.validate().ok()?;
        let time = || raw::time_of_sample(self.stream_start_time, self.sample_rate, sample);
        (sample <= 1 << 40).then(time)
    }
}
