//! The voice detector.

use crate::layout::{self, ROW_FIELDS, float, number, row};
use crate::raw;
use crate::refusal::Refusal;
use crate::settings::VadConfig;

/// Rows that a call is lent room for at first: more in one call are rare, and are asked for again.
const ROWS_AT_FIRST: usize = 4;

/// A stretch of speech that was found.
#[derive(Debug, Clone, Copy, PartialEq)]
pub struct SpeechChunk {
    /// Where it begins and ends in the stream, in samples, the padding included.
    pub start_sample: u64,
    pub end_sample: u64,
    /// The same in nanoseconds, from the stream's start time on.
    pub start_time: u64,
    pub end_time: u64,
    /// The scores of its loud frames, each from 0 to 1,024.
    pub score_total: u64,
    /// Its loud frames; those of the hangover are not counted.
    pub loud_frames: u64,
    /// Mean energy of its loud frames: the root mean square of a frame after pre-emphasis and windowing.
    pub mean_energy: f32,
}

impl SpeechChunk {
    fn from_fields(fields: &[u64; ROW_FIELDS]) -> SpeechChunk {
        SpeechChunk {
            start_sample: fields[row::START_SAMPLE],
            end_sample: fields[row::END_SAMPLE],
            start_time: fields[row::START_TIME],
            end_time: fields[row::END_TIME],
            score_total: fields[row::SCORE_TOTAL],
            loud_frames: fields[row::LOUD_FRAMES],
            mean_energy: f32::from_bits(fields[row::MEAN_ENERGY] as u32),
        }
    }

    /// How far the loud frames rise above the noise floor, from 0 (at the floor) to 1 (20 dB or more above it).
    pub fn confidence(&self) -> f64 {
        self.score_total as f64 / (1024.0 * self.loud_frames.max(1) as f64)
    }
}

/// What a call counted: the frames judged in it. A frame of the hangover, which only keeps a segment open, is silence.
#[derive(Debug, Clone, Copy, Default, PartialEq, Eq)]
pub struct VadStats {
    pub frames_processed: u64,
    pub speech_frames: u64,
    pub silence_frames: u64,
}

/// What a call found.
#[derive(Debug, Clone, PartialEq)]
pub struct Detected {
    /// The segments that closed.
    pub segments: Vec<SpeechChunk>,
    pub stats: VadStats,
    /// The estimate of the background's energy after the call.
    pub noise_floor: f32,
}

/// A detector's state as the library has it, to be stored: [`layout`](crate::layout) says what stands where.
#[repr(C)]
#[derive(Debug, Clone, PartialEq)]
pub struct DetectorState {
    pub numbers: [u64; DetectorState::NUMBERS],
    pub floats: [f32; DetectorState::FLOATS],
}

impl DetectorState {
    /// How many numbers and floats a state has.
    pub const NUMBERS: usize = layout::NUMBERS;
    pub const FLOATS: usize = layout::FLOATS;
    /// How many bytes they are; a C struct of them has four more at its end.
    pub const BYTES: usize = 8 * Self::NUMBERS + 4 * Self::FLOATS;

    /// No state: refused by 19.
    fn zeros() -> Box<DetectorState> {
        Box::new(DetectorState {
            numbers: [0; Self::NUMBERS],
            floats: [0.0; Self::FLOATS],
        })
    }

    /// The numbers, then the floats, little endian.
    pub fn to_bytes(&self) -> Vec<u8> {
        let numbers = self.numbers.iter().flat_map(|number| number.to_le_bytes());
        let floats = self.floats.iter().flat_map(|float| float.to_le_bytes());
        numbers.chain(floats).collect()
    }

    /// `None` where there are not [`DetectorState::BYTES`] bytes. Whether they are a detector's state is asked by [`Detector::from_state`].
    pub fn from_bytes(bytes: &[u8]) -> Option<Box<DetectorState>> {
        if bytes.len() != Self::BYTES {
            return None;
        }
        let (numbers, floats) = bytes.split_at(8 * Self::NUMBERS);
        let mut state = Self::zeros();
        for (number, bytes) in state.numbers.iter_mut().zip(numbers.as_chunks().0) {
            *number = u64::from_le_bytes(*bytes);
        }
        for (float, bytes) in state.floats.iter_mut().zip(floats.as_chunks().0) {
            *float = f32::from_le_bytes(*bytes);
        }
        Some(state)
    }
}

/// A voice detector and what it has heard so far, so that a stream can be handed over in blocks.
///
/// From [`Detector::new`] to the next [`Detector::reset`] segments come in order, never overlap, lie in the sound received, and never start before a position
/// that [`Detector::undecided_from`] gave earlier: what lies before it may be handed on.
///
/// ```
/// use fallowcart::{Detector, VadConfig};
///
/// # fn main() -> Result<(), fallowcart::Refusal> {
/// let mut detector = Detector::new(VadConfig::default())?;
/// let hush = [0.001, -0.001].repeat(512);
/// let word = [0.3, -0.2].repeat(512);
/// let mut segments = Vec::new();
/// for block in [&hush, &hush, &hush, &hush, &hush, &word, &word, &word, &hush, &hush] {
///     segments.extend(detector.detect(block)?.segments);
/// }
/// segments.extend(detector.flush()?.segments);
/// assert_eq!(segments.len(), 1);
/// assert!(segments[0].start_sample < 5 * 1024 && 8 * 1024 <= segments[0].end_sample);
/// assert_eq!(detector.talk_samples()?, segments[0].end_sample - segments[0].start_sample);
/// # Ok(())
/// # }
/// ```
///
/// A detector that was opened here is never refused by 19. One [from a stored state](Detector::from_state) may be, at any call, where the state was damaged
/// in a way that does not show at once.
#[derive(Debug, Clone, PartialEq)]
pub struct Detector {
    state: Box<DetectorState>,
}

impl Detector {
    /// Samples of the longest block.
    pub const LONGEST_BLOCK: usize = 1024;

    /// Opens a detector with [`VadConfig::window`] and [`VadConfig::speech_floor_rise`].
    ///
    /// # Errors
    ///
    /// Refusals 1 to 14.
    pub fn new(config: VadConfig) -> Result<Detector, Refusal> {
        Detector::with_window(config, &config.window()?, config.speech_floor_rise()?)
    }

    /// Opens a detector with a window, a frame long, and a weight for raising the noise floor during speech.
    ///
    /// # Errors
    ///
    /// Refusals 1 to 14.
    pub fn with_window(
        config: VadConfig,
        window: &[f32],
        speech_floor_rise: f32,
    ) -> Result<Detector, Refusal> {
        let mut state = DetectorState::zeros();
        Refusal::check(raw::vad_open(
            &config.into(),
            window,
            speech_floor_rise,
            &mut state.numbers,
            &mut state.floats,
        ))?;
        Ok(Detector { state })
    }

    /// Hears the next block of the stream, whose full scale is 1. Blocks may have any size up to 1,024: samples that do not fill a frame yet wait for the next call, and a
    /// segment that is open at the end of a block is reported once it closes.
    ///
    /// # Errors
    ///
    /// Refusals 15, 16 and 17 (and 19 of a damaged state), which leave the detector as it was.
    ///
    /// ```
    /// let mut detector = fallowcart::Detector::new(fallowcart::VadConfig::default()).unwrap();
    /// let refusal = detector.detect(&[0.0, f32::INFINITY]).unwrap_err();
    /// assert_eq!((refusal.number(), refusal.place()), (16, Some(1)));
    /// ```
    pub fn detect(&mut self, samples: &[f32]) -> Result<Detected, Refusal> {
        self.call(|state, rows| {
            raw::vad_detect(&mut state.numbers, &mut state.floats, samples, rows)
        })
    }

    /// Judges what still waits for a full frame and closes the open segment, if there is one. The stream may go on after it, on a new grid of frames.
    ///
    /// # Errors
    ///
    /// Refusal 19 of a damaged state.
    pub fn flush(&mut self) -> Result<Detected, Refusal> {
        self.call(|state, rows| raw::vad_flush(&mut state.numbers, &mut state.floats, rows))
    }

    /// A call with room for a few rows; if they do not fit, with the room that it asks for.
    fn call(
        &mut self,
        call: impl Fn(&mut DetectorState, &mut [u64]) -> u64,
    ) -> Result<Detected, Refusal> {
        let mut few = [0; ROWS_AT_FIRST * ROW_FIELDS];
        let mut many = Vec::new();
        let mut rows: &mut [u64] = &mut few;
        let answer = Refusal::check(call(&mut self.state, rows)).or_else(|refusal| {
            let needed = refusal.rows_needed().ok_or(refusal)?;
            many.resize(needed * ROW_FIELDS, 0);
            rows = &mut many;
            Refusal::check(call(&mut self.state, rows))
        });
        answer?;
        let numbers = &self.state.numbers;
        let stats = VadStats {
            frames_processed: numbers[number::FRAMES],
            speech_frames: numbers[number::LOUD],
            silence_frames: numbers[number::QUIET],
        };
        let written = rows
            .as_chunks()
            .0
            .iter()
            .take(numbers[number::ROWS] as usize);
        Ok(Detected {
            segments: written.map(SpeechChunk::from_fields).collect(),
            stats,
            noise_floor: self.state.floats[float::NOISE_FLOOR],
        })
    }

    /// Forgets all that was heard, the noise floor included, and starts a new stream.
    ///
    /// # Errors
    ///
    /// Refusal 13 where the start is 2^63 ns or later (and 19 of a damaged state).
    pub fn reset(&mut self, stream_start_time: u64) -> Result<(), Refusal> {
        let state = &mut *self.state;
        let answer = raw::vad_reset(&mut state.numbers, &mut state.floats, stream_start_time);
        Refusal::check(answer).map(|_| ())
    }

    /// The first sample whose judgement can still change. Until a reset it never goes back, and no later segment starts before it.
    ///
    /// # Errors
    ///
    /// Of all readings: refusal 19 of a damaged state.
    pub fn undecided_from(&self) -> Result<u64, Refusal> {
        self.read(raw::vad_undecided_from)
    }

    /// Where the next frame starts: the sound before it has been used up.
    pub fn analyzed_until(&self) -> Result<u64, Refusal> {
        self.read(raw::vad_analyzed_until)
    }

    /// Where the open segment starts, if one is open.
    pub fn active_segment_start_sample(&self) -> Result<Option<u64>, Refusal> {
        let start = self.read(raw::vad_active_segment_start_sample)?;
        Ok(start.checked_sub(1))
    }

    /// Segments since the opening or the latest reset.
    pub fn rows_reported(&self) -> Result<u64, Refusal> {
        self.read(raw::vad_rows_reported)
    }

    /// Their samples.
    pub fn talk_samples(&self) -> Result<u64, Refusal> {
        self.read(raw::vad_talk_samples)
    }

    /// The estimate of the background's energy.
    pub fn noise_floor(&self) -> Result<f32, Refusal> {
        let bits = self.read(raw::vad_noise_floor)?;
        Ok(f32::from_bits(bits as u32))
    }

    fn read(&self, reading: fn(&[u64], &[f32]) -> u64) -> Result<u64, Refusal> {
        Refusal::check(reading(&self.state.numbers, &self.state.floats))
    }

    /// The state, to be stored.
    ///
    /// ```
    /// use fallowcart::{Detector, DetectorState, VadConfig};
    ///
    /// let detector = Detector::new(VadConfig::default()).unwrap();
    /// let stored = detector.state().to_bytes();
    /// let state = DetectorState::from_bytes(&stored).unwrap();
    /// assert_eq!(Detector::from_state(&state), Ok(detector));
    ///
    /// let zeros = DetectorState::from_bytes(&[0; DetectorState::BYTES]).unwrap();
    /// assert_eq!(Detector::from_state(&zeros).unwrap_err().number(), 19);
    /// ```
    pub fn state(&self) -> &DetectorState {
        &self.state
    }

    /// The detector that has this state.
    ///
    /// # Errors
    ///
    /// Refusal 19 where the state is malformed, or where another [layout](crate::layout::LAYOUT) stored it. Not every state that is damaged is malformed.
    pub fn from_state(state: &DetectorState) -> Result<Detector, Refusal> {
        Refusal::check(raw::vad_undecided_from(&state.numbers, &state.floats))?;
        Ok(Detector {
            state: Box::new(state.clone()),
        })
    }
}
