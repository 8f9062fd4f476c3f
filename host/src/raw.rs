//! The door's functions on slices and bare numbers, for hosts that keep the state themselves and for tests. Every length and every word is allowed. The
//! types for people, [`Detector`](crate::Detector), [`Filter`](crate::Filter) and their settings, stand above this module, which knows none of them.
//!
//! The answer of the detector's and the filter's functions is packed: the refusal's number, or 0, and 2^8 times what it carries.

use crate::door;

pub use crate::door::{
    fallowcart_frame_length as frame_length, fallowcart_hop_length as hop_length,
    fallowcart_padding_samples as padding_samples, fallowcart_time_of_sample as time_of_sample,
    fallowcart_warmup_frames as warmup_frames,
};

/// The settings with the two functions that take them, so that they are written out once.
macro_rules! settings {
    ($($(#[$doc:meta])* $name:ident: $type:ty,)*) => {
        /// The detector's settings as the door takes them. Durations and times are in nanoseconds.
        #[derive(Debug, Clone, Copy, PartialEq)]
        pub struct Settings {
            $($(#[$doc])* pub $name: $type,)*
        }

        /// The first of refusals 1 to 13 that the settings meet, or 0.
        pub fn settings_refusal(settings: &Settings) -> u32 {
            door::fallowcart_settings_refusal($(settings.$name),*)
        }

        /// Opens a detector in memory for [`NUMBERS`](crate::layout::NUMBERS) numbers and [`FLOATS`](crate::layout::FLOATS) floats. Memory that is too short
        /// is left as it is; in other memory a refused opening leaves an all-zero state, which is no detector's: the layout's name and zeros behind it.
        pub fn vad_open(
            settings: &Settings,
            window: &[f32],
            speech_floor_rise: f32,
            numbers: &mut [u64],
            floats: &mut [f32],
        ) -> u64 {
            // SAFETY: each pointer comes with the length of its slice, and the three slices lie apart.
            unsafe {
                door::fallowcart_vad_open(
                    $(settings.$name,)*
                    window.as_ptr(),
                    window.len(),
                    speech_floor_rise,
                    numbers.as_mut_ptr(),
                    numbers.len(),
                    floats.as_mut_ptr(),
                    floats.len(),
                )
            }
        }
    };
}

settings! {
    sample_rate: u32,
    frame_duration: u64,
    frame_overlap: f32,
    has_pre_emphasis: bool,
    /// Not looked at where there is none.
    pre_emphasis: f32,
    activation_ratio: f32,
    release_ratio: f32,
    min_speech_energy: f32,
    noise_smoothing: f32,
    energy_floor: f32,
    hangover_frames: u64,
    speech_padding: u64,
    min_speech_frames: u64,
    stream_start_time: u64,
}

/// Hears a block. Rows are [`ROW_FIELDS`](crate::layout::ROW_FIELDS) numbers each.
pub fn vad_detect(
    numbers: &mut [u64],
    floats: &mut [f32],
    samples: &[f32],
    rows: &mut [u64],
) -> u64 {
    // SAFETY: each pointer comes with the length of its slice, and the four slices lie apart.
    unsafe {
        door::fallowcart_vad_detect(
            numbers.as_mut_ptr(),
            numbers.len(),
            floats.as_mut_ptr(),
            floats.len(),
            samples.as_ptr(),
            samples.len(),
            rows.as_mut_ptr(),
            rows.len(),
        )
    }
}

/// The stream's end.
pub fn vad_flush(numbers: &mut [u64], floats: &mut [f32], rows: &mut [u64]) -> u64 {
    // SAFETY: each pointer comes with the length of its slice, and the three slices lie apart.
    unsafe {
        door::fallowcart_vad_flush(
            numbers.as_mut_ptr(),
            numbers.len(),
            floats.as_mut_ptr(),
            floats.len(),
            rows.as_mut_ptr(),
            rows.len(),
        )
    }
}

/// Forgets all that was heard.
pub fn vad_reset(numbers: &mut [u64], floats: &mut [f32], stream_start_time: u64) -> u64 {
    // SAFETY: each pointer comes with the length of its slice, and the two slices lie apart.
    unsafe {
        door::fallowcart_vad_reset(
            numbers.as_mut_ptr(),
            numbers.len(),
            floats.as_mut_ptr(),
            floats.len(),
            stream_start_time,
        )
    }
}

/// A reading of the detector's memory.
macro_rules! readings {
    ($($(#[$doc:meta])* $name:ident => $door:ident,)*) => {$(
        $(#[$doc])*
        pub fn $name(numbers: &[u64], floats: &[f32]) -> u64 {
            // SAFETY: each pointer comes with the length of its slice.
            unsafe { door::$door(numbers.as_ptr(), numbers.len(), floats.as_ptr(), floats.len()) }
        }
    )*};
}

readings! {
    /// The first sample whose judgement can still change.
    vad_undecided_from => fallowcart_vad_undecided_from,
    /// Where the next frame starts.
    vad_analyzed_until => fallowcart_vad_analyzed_until,
    /// Carries 0 where no segment is open, else one more than its start.
    vad_active_segment_start_sample => fallowcart_vad_active_segment_start_sample,
    /// Rows since the opening or the latest reset.
    vad_rows_reported => fallowcart_vad_rows_reported,
    /// Their samples.
    vad_talk_samples => fallowcart_vad_talk_samples,
    /// Carries the floor's bits.
    vad_noise_floor => fallowcart_vad_noise_floor,
}

/// The filter's settings as the door takes them.
#[derive(Debug, Clone, Copy, PartialEq)]
pub struct FilterSettings {
    pub highpass_cutoff_hz: f32,
    pub sample_rate_hz: u32,
    pub dc_bias_alpha: f32,
    pub enable_dc_removal: bool,
    pub enable_highpass: bool,
    pub fourth_order: bool,
}

/// Opens a filter in a state of [`FILTER_WORDS`](crate::layout::FILTER_WORDS) words. The ten coefficients are b0, b1, b2, a1, a2 of the first stage, then those of the second.
pub fn filter_open(settings: &FilterSettings, coefficients: &[f32], state: &mut [u32]) -> u64 {
    // SAFETY: each pointer comes with the length of its slice, and the two slices lie apart.
    unsafe {
        door::fallowcart_filter_open(
            settings.highpass_cutoff_hz,
            settings.sample_rate_hz,
            settings.dc_bias_alpha,
            settings.enable_dc_removal,
            settings.enable_highpass,
            settings.fourth_order,
            coefficients.as_ptr(),
            coefficients.len(),
            state.as_mut_ptr(),
            state.len(),
        )
    }
}

/// Filters a block. Without a context `is_silence` says nothing.
pub fn filter_process(
    state: &mut [u32],
    samples: &[f32],
    has_context: bool,
    is_silence: bool,
    output: &mut [f32],
) -> u64 {
    // SAFETY: each pointer comes with the length of its slice, and the three slices lie apart.
    unsafe {
        door::fallowcart_filter_process(
            state.as_mut_ptr(),
            state.len(),
            samples.as_ptr(),
            samples.len(),
            has_context,
            is_silence,
            output.as_mut_ptr(),
            output.len(),
        )
    }
}

/// Forgets the sound.
pub fn filter_reset(state: &mut [u32]) -> u64 {
    // SAFETY: the pointer comes with the length of its slice.
    unsafe { door::fallowcart_filter_reset(state.as_mut_ptr(), state.len()) }
}

/// Carries the bits of the bias.
pub fn filter_bias(state: &[u32]) -> u64 {
    // SAFETY: the pointer comes with the length of its slice.
    unsafe { door::fallowcart_filter_bias(state.as_ptr(), state.len()) }
}
