//! The C door of the proved library, as `include/fallowcart.h` has it.
//!
//! Every word is allowed. Where only words go in and a word comes out, the functions are safe to call; where slices go in, each as its pointer and then
//! its length, the caller answers for the pointers, and `raw.rs` does.

unsafe extern "C" {
    /// Bits of a * b + c rounded once, or 2^32 where there is no finite number.
    pub safe fn fallowcart_fused_bits(a: u32, b: u32, c: u32) -> u64;

    /// Bits of the root of x, or 2^32 where there is no finite number.
    pub safe fn fallowcart_root_bits(x: u32) -> u64;

    /// The score of the ratio with these bits.
    pub safe fn fallowcart_score_bits(x: u32) -> u64;

    /// The f32 nearest to a count.
    pub safe fn fallowcart_nearest(n: u64) -> f32;

    /// x rounded half away from zero, as a u64.
    pub safe fn fallowcart_round_f32(x: f32) -> u64;
    pub safe fn fallowcart_round_f64(x: f64) -> u64;

    /// x rounded up, as a u64.
    pub safe fn fallowcart_ceil_f64(x: f64) -> u64;

    /// The first of refusals 1 to 13 that these settings meet, or 0. Durations and times are in nanoseconds.
    pub safe fn fallowcart_settings_refusal(
        sample_rate: u32,
        frame_duration: u64,
        frame_overlap: f32,
        has_pre_emphasis: bool,
        pre_emphasis: f32,
        activation_ratio: f32,
        release_ratio: f32,
        min_speech_energy: f32,
        noise_smoothing: f32,
        energy_floor: f32,
        hangover_frames: u64,
        speech_padding: u64,
        min_speech_frames: u64,
        stream_start_time: u64,
    ) -> u32;

    /// Samples of a frame; 0 where refusals 1 or 2 are met.
    pub safe fn fallowcart_frame_length(sample_rate: u32, frame_duration: u64) -> u64;

    /// Samples from one frame's start to the next one's.
    pub safe fn fallowcart_hop_length(frame_length: u64, frame_overlap: f32) -> u64;

    /// Frames of the warm-up.
    pub safe fn fallowcart_warmup_frames(hop_length: u64, sample_rate: u32) -> u64;

    /// Samples of the padding.
    pub safe fn fallowcart_padding_samples(speech_padding: u64, sample_rate: u32) -> u64;

    /// When a sample is, in nanoseconds; 0 outside the domain.
    pub safe fn fallowcart_time_of_sample(
        stream_start_time: u64,
        sample_rate: u32,
        sample: u64,
    ) -> u64;

    /// Opens a detector: the first of refusals 19 (the memory is too short) and 1 to 14 that is met, or 0.
    pub fn fallowcart_vad_open(
        sample_rate: u32,
        frame_duration: u64,
        frame_overlap: f32,
        has_pre_emphasis: bool,
        pre_emphasis: f32,
        activation_ratio: f32,
        release_ratio: f32,
        min_speech_energy: f32,
        noise_smoothing: f32,
        energy_floor: f32,
        hangover_frames: u64,
        speech_padding: u64,
        min_speech_frames: u64,
        stream_start_time: u64,
        window: *const f32,
        window_len: usize,
        speech_floor_rise: f32,
        numbers: *mut u64,
        numbers_len: usize,
        floats: *mut f32,
        floats_len: usize,
    ) -> u64;

    /// Hears a block: 0, or a refusal, and 2^8 times what it carries.
    pub fn fallowcart_vad_detect(
        numbers: *mut u64,
        numbers_len: usize,
        floats: *mut f32,
        floats_len: usize,
        samples: *const f32,
        samples_len: usize,
        rows: *mut u64,
        rows_len: usize,
    ) -> u64;

    /// The stream's end, which may go on after it: 0, or a refusal, and 2^8 times what it carries.
    pub fn fallowcart_vad_flush(
        numbers: *mut u64,
        numbers_len: usize,
        floats: *mut f32,
        floats_len: usize,
        rows: *mut u64,
        rows_len: usize,
    ) -> u64;

    /// Forgets all that was heard: 19, 13, or 0.
    pub fn fallowcart_vad_reset(
        numbers: *mut u64,
        numbers_len: usize,
        floats: *mut f32,
        floats_len: usize,
        stream_start_time: u64,
    ) -> u64;

    /// Readings: 2^8 times the value, or 19.
    pub fn fallowcart_vad_undecided_from(
        numbers: *const u64,
        numbers_len: usize,
        floats: *const f32,
        floats_len: usize,
    ) -> u64;
    pub fn fallowcart_vad_analyzed_until(
        numbers: *const u64,
        numbers_len: usize,
        floats: *const f32,
        floats_len: usize,
    ) -> u64;
    pub fn fallowcart_vad_active_segment_start_sample(
        numbers: *const u64,
        numbers_len: usize,
        floats: *const f32,
        floats_len: usize,
    ) -> u64;
    pub fn fallowcart_vad_rows_reported(
        numbers: *const u64,
        numbers_len: usize,
        floats: *const f32,
        floats_len: usize,
    ) -> u64;
    pub fn fallowcart_vad_talk_samples(
        numbers: *const u64,
        numbers_len: usize,
        floats: *const f32,
        floats_len: usize,
    ) -> u64;
    pub fn fallowcart_vad_noise_floor(
        numbers: *const u64,
        numbers_len: usize,
        floats: *const f32,
        floats_len: usize,
    ) -> u64;

    /// Opens a filter: the first of refusals 27 (the state has too few words) and 20 to 24 that is met, or 0.
    pub fn fallowcart_filter_open(
        highpass_cutoff_hz: f32,
        sample_rate_hz: u32,
        dc_bias_alpha: f32,
        enable_dc_removal: bool,
        enable_highpass: bool,
        fourth_order: bool,
        coefficients: *const f32,
        coefficients_len: usize,
        state: *mut u32,
        state_len: usize,
    ) -> u64;

    /// Filters a block: 0, or a refusal, and 2^8 times its place.
    pub fn fallowcart_filter_process(
        state: *mut u32,
        state_len: usize,
        samples: *const f32,
        samples_len: usize,
        has_context: bool,
        is_silence: bool,
        output: *mut f32,
        output_len: usize,
    ) -> u64;

    /// Forgets the sound: 27, or 0.
    pub fn fallowcart_filter_reset(state: *mut u32, state_len: usize) -> u64;

    /// 2^8 times the bias' bits, or 27.
    pub fn fallowcart_filter_bias(state: *const u32, state_len: usize) -> u64;
}
