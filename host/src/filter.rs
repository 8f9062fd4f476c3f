//! The filter: removal of a DC bias, then a Butterworth high-pass.

use crate::layout;
use crate::raw;
use crate::refusal::Refusal;

/// Settings of a [`Filter`]. The names and the defaults are the original's.
#[derive(Debug, Clone, Copy, PartialEq)]
pub struct PreprocessingConfig {
    /// High-pass cutoff (-3 dB) in Hz, at least 20 and below half the sample rate.
    pub highpass_cutoff_hz: f32,
    /// Sample rate in Hz, 8,000 to 48,000.
    pub sample_rate_hz: u32,
    /// Smoothing of the running bias, in (0, 1): a block makes it `alpha * bias + (1 - alpha) * mean`.
    pub dc_bias_alpha: f32,
    /// Subtract the running bias.
    pub enable_dc_removal: bool,
    /// Apply the high-pass.
    pub enable_highpass: bool,
    /// Order of the high-pass.
    pub highpass_order: HighpassOrder,
}

impl Default for PreprocessingConfig {
    fn default() -> Self {
        Self {
            highpass_cutoff_hz: 80.0,
            sample_rate_hz: 16_000,
            dc_bias_alpha: 0.95,
            enable_dc_removal: true,
            enable_highpass: true,
            highpass_order: HighpassOrder::FourthOrder,
        }
    }
}

impl PreprocessingConfig {
    /// The coefficients b0, b1, b2, a1, a2 of the two stages by the original's formulas. Second order never reads the second stage's, and has zeros there.
    ///
    /// They rest on the C library's sine and cosine, so their last digits may depend on the machine; the filter keeps those that it was opened with.
    ///
    /// ```
    /// let [first, _] = fallowcart::PreprocessingConfig::default().coefficients();
    /// let [b0, b1, b2, ..] = first;
    /// assert!(b0 == b2 && b1 == -2.0 * b0);
    /// ```
    pub fn coefficients(&self) -> [[f32; 5]; 2] {
        let of = |q| highpass_coefficients(self.highpass_cutoff_hz, self.sample_rate_hz, q);
        match self.highpass_order {
            HighpassOrder::SecondOrder => [of(std::f32::consts::FRAC_1_SQRT_2), [0.0; 5]],
            HighpassOrder::FourthOrder => [of(0.541_196_1), of(1.306_563)],
        }
    }
}

/// The settings as the door takes them.
impl From<PreprocessingConfig> for raw::FilterSettings {
    fn from(config: PreprocessingConfig) -> raw::FilterSettings {
        raw::FilterSettings {
            highpass_cutoff_hz: config.highpass_cutoff_hz,
            sample_rate_hz: config.sample_rate_hz,
            dc_bias_alpha: config.dc_bias_alpha,
            enable_dc_removal: config.enable_dc_removal,
            enable_highpass: config.enable_highpass,
            fourth_order: config.highpass_order == HighpassOrder::FourthOrder,
        }
    }
}

/// Coefficients of a stage with this quality. The formulas are those of `highpass_coefficients` in the original's `dc_highpass.rs`, under its licence
/// (NOTICE).
fn highpass_coefficients(cutoff_hz: f32, sample_rate_hz: u32, q: f32) -> [f32; 5] {
    use std::f32::consts::PI;

    let w0 = 2.0 * PI * cutoff_hz / sample_rate_hz as f32;
    let alpha = w0.sin() / (2.0 * q);
    let cos_w0 = w0.cos();
    let a0 = 1.0 + alpha;
    [
        f32::midpoint(1.0, cos_w0) / a0,
        -(1.0 + cos_w0) / a0,
        f32::midpoint(1.0, cos_w0) / a0,
        (-2.0 * cos_w0) / a0,
        (1.0 - alpha) / a0,
    ]
}

/// Order of the high-pass.
#[derive(Debug, Clone, Copy, PartialEq, Eq, Default)]
pub enum HighpassOrder {
    /// 12 dB an octave, one stage.
    SecondOrder,
    /// 24 dB an octave, two stages.
    #[default]
    FourthOrder,
}

/// What is known about a block: the bias follows silent blocks and those without a context.
#[derive(Debug, Clone, Copy, PartialEq, Eq)]
pub struct VadContext {
    /// The block is silence.
    pub is_silence: bool,
}

/// A filter and what it remembers of the sound so far, so that a stream can be handed over in blocks.
///
/// ```
/// use fallowcart::{Filter, PreprocessingConfig};
///
/// # fn main() -> Result<(), fallowcart::Refusal> {
/// let mut filter = Filter::new(PreprocessingConfig::default())?;
/// let mut clean = [0.0; 160];
/// for _ in 0..1_000 {
///     filter.process(&[0.1; 160], None, &mut clean)?;
/// }
/// // What never changes is gone.
/// assert!((filter.dc_bias() - 0.1).abs() < 1e-6);
/// assert!(clean.iter().all(|sample| sample.abs() < 1e-6));
/// # Ok(())
/// # }
/// ```
#[derive(Debug, Clone, PartialEq, Eq)]
pub struct Filter {
    state: [u32; Filter::STATE_WORDS],
}

impl Filter {
    /// How many words a state has.
    pub const STATE_WORDS: usize = layout::FILTER_WORDS;

    /// Opens a filter with [`PreprocessingConfig::coefficients`].
    ///
    /// # Errors
    ///
    /// Refusals 20 to 24. For a cutoff just below half the sample rate the formulas can miss 24's ranges.
    pub fn new(config: PreprocessingConfig) -> Result<Filter, Refusal> {
        Filter::with_coefficients(config, config.coefficients())
    }

    /// Opens a filter with coefficients b0, b1, b2, a1, a2 of each stage. The order alone says which stages are in use.
    ///
    /// # Errors
    ///
    /// Refusals 20 to 24.
    ///
    /// ```
    /// use fallowcart::{Filter, PreprocessingConfig};
    ///
    /// let pass = [1.0, 0.0, 0.0, 0.0, 0.0];
    /// let mut filter = Filter::with_coefficients(PreprocessingConfig::default(), [pass; 2]).unwrap();
    /// let mut output = [0.0];
    /// filter.process(&[0.5], Some(fallowcart::VadContext { is_silence: false }), &mut output).unwrap();
    /// assert_eq!(output, [0.5]);
    /// ```
    pub fn with_coefficients(
        config: PreprocessingConfig,
        coefficients: [[f32; 5]; 2],
    ) -> Result<Filter, Refusal> {
        let mut state = [0; Filter::STATE_WORDS];
        Refusal::check(raw::filter_open(
            &config.into(),
            coefficients.as_flattened(),
            &mut state,
        ))?;
        Ok(Filter { state })
    }

    /// Filters a block into the output, whose rest past the block's length stays.
    ///
    /// # Errors
    ///
    /// Refusals 15, 25 and 16 leave filter and output as they were. After 26, which ordinary settings never meet, the filter is as it was, and the
    /// output holds the results before the refused place, then zeros up to the block's length.
    ///
    /// ```
    /// use fallowcart::{Filter, PreprocessingConfig};
    ///
    /// let mut filter = Filter::new(PreprocessingConfig::default()).unwrap();
    /// let refusal = filter.process(&[0.0, f32::NAN], None, &mut [0.0; 2]).unwrap_err();
    /// assert_eq!((refusal.number(), refusal.place()), (16, Some(1)));
    /// ```
    pub fn process(
        &mut self,
        samples: &[f32],
        vad_context: Option<VadContext>,
        output: &mut [f32],
    ) -> Result<(), Refusal> {
        let is_silence = vad_context.is_some_and(|context| context.is_silence);
        let has_context = vad_context.is_some();
        let answer = raw::filter_process(&mut self.state, samples, has_context, is_silence, output);
        Refusal::check(answer).map(|_| ())
    }

    /// Forgets the sound so far, the bias included, before a new stream.
    pub fn reset(&mut self) {
        sound(Refusal::check(raw::filter_reset(&mut self.state)));
    }

    /// The running bias.
    pub fn dc_bias(&self) -> f32 {
        f32::from_bits(sound(Refusal::check(raw::filter_bias(&self.state))) as u32)
    }

    /// The state as words, to be stored.
    ///
    /// ```
    /// use fallowcart::{Filter, PreprocessingConfig};
    ///
    /// let filter = Filter::new(PreprocessingConfig::default()).unwrap();
    /// let stored = filter.state();
    /// assert_eq!(Filter::from_state(stored), Ok(filter));
    /// assert_eq!(Filter::from_state([7; Filter::STATE_WORDS]).unwrap_err().number(), 27);
    /// ```
    pub fn state(&self) -> [u32; Filter::STATE_WORDS] {
        self.state
    }

    /// The filter that has this state.
    ///
    /// # Errors
    ///
    /// Refusal 27 where no filter has it.
    pub fn from_state(state: [u32; Filter::STATE_WORDS]) -> Result<Filter, Refusal> {
        Refusal::check(raw::filter_bias(&state))?;
        Ok(Filter { state })
    }
}

/// A `Filter` is only made with a sound state, and every call keeps it sound: that is proved (`next-sound` in dc_highpass' Runs).
fn sound(answer: Result<u64, Refusal>) -> u64 {
    answer.expect("a sound state")
}
