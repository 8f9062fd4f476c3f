//! Where each number of a stored state stands, and each number of a row.
//!
//! The proved crate `vad_layout` has the same names for a detector's state, and `include/fallowcart.h` has them all for C; tests hold the three to each other.
//! No other file of this crate, of its tests or of the C programs knows a place by its number.
//!
//! ```
//! use fallowcart::layout::{self, float, number};
//! use fallowcart::{Detector, VadConfig};
//!
//! let detector = Detector::new(VadConfig::default()).unwrap();
//! let state = detector.state();
//! assert_eq!(state.numbers[number::LAYOUT], layout::LAYOUT);
//! assert_eq!(state.numbers[number::HOP_LENGTH], 160);
//! assert_eq!(state.floats[float::ENERGY_FLOOR], 1e-4);
//! ```

/// Places one after the other, each by its name; an array has its length behind its name.
macro_rules! places {
    ($($(#[$doc:meta])* $name:ident $(: $length:expr)?,)*) => {
        #[allow(non_camel_case_types, clippy::upper_case_acronyms)]
        enum Place {
            $($name,)*
        }

        const LENGTHS: &[usize] = &[$(1 $(* $length)?),*];

        $($(#[$doc])* pub const $name: usize = super::sum(LENGTHS, Place::$name as usize);)*

        /// How many there are.
        pub const LENGTH: usize = super::sum(LENGTHS, LENGTHS.len());

        /// Each name with its place.
        pub const ALL: &[(&str, usize)] = &[$((stringify!($name), $name)),*];
    };
}

/// The sum of the first n.
const fn sum(lengths: &[usize], n: usize) -> usize {
    if n == 0 {
        0
    } else {
        sum(lengths, n - 1) + lengths[n - 1]
    }
}

/// Samples of the longest frame: the window and the carry have room for as many.
pub const LONGEST_FRAME: usize = 2_048;

/// Frames of the longest warm-up.
pub const LONGEST_WARMUP: usize = 300;

/// The name of the layout of a detector's state, which is its first number. Every change of the layout changes it, so that a state that another one stored is
/// refused by 19 and never misread. It is never 0, since zeros are no state.
pub const LAYOUT: u64 = 0x4641_4C4C_4F57_0001;

/// Numbers of a detector's state.
pub const NUMBERS: usize = number::LENGTH;

/// Floats of a detector's state.
pub const FLOATS: usize = float::LENGTH;

/// Words of a filter's state.
pub const FILTER_WORDS: usize = filter::LENGTH;

/// Numbers of a row.
pub const ROW_FIELDS: usize = row::LENGTH;

/// Places among a detector's numbers. Durations and times are in nanoseconds, a flag is 0 or 1.
///
/// Where no segment is open, the library writes zeros to what is said of one, and does not look there. It never looks at what a call counted, and an
/// opening or a reset makes that 0.
pub mod number {
    places! {
        /// The [name of the layout](super::LAYOUT).
        LAYOUT,
        /// What the latest call that was not refused counted: the frames that it judged.
        FRAMES,
        LOUD,
        QUIET,
        /// The rows that it reported.
        ROWS,
        SAMPLE_RATE,
        FRAME_DURATION,
        /// A flag.
        HAS_PRE_EMPHASIS,
        HANGOVER_FRAMES,
        SPEECH_PADDING,
        MIN_SPEECH_FRAMES,
        STREAM_START_TIME,
        /// Samples of a frame.
        FRAME_LENGTH,
        /// Samples from one frame's start to the next one's.
        HOP_LENGTH,
        WARMUP_FRAMES,
        /// The padding in samples.
        PADDING_SAMPLES,
        CARRY_LEN,
        CARRY_START,
        /// Samples received.
        PROCESSED_SAMPLES,
        /// A flag.
        WARMING,
        /// Frames that the warm-up holds.
        HELD,
        LAST_SEGMENT_END,
        ROWS_REPORTED,
        TALK_SAMPLES,
        /// A flag; what follows is of the open segment.
        IS_OPEN,
        START_SAMPLE,
        /// The end of its last loud frame.
        LAST_END_SAMPLE,
        SCORE_TOTAL,
        LOUD_FRAMES,
        /// Quiet frames since its last loud one.
        SILENCE_RUN,
    }

    /// The numbers that are the state, behind the name and what a call counted.
    pub const STATE: std::ops::Range<usize> = SAMPLE_RATE..LENGTH;
}

/// Places among a detector's floats. Past the used part of an array the library writes zeros and looks at nothing.
pub mod float {
    use super::{LONGEST_FRAME, LONGEST_WARMUP};

    places! {
        /// A frame long.
        WINDOW: LONGEST_FRAME,
        /// Pre-emphasized values that no complete frame has used up.
        CARRY: LONGEST_FRAME,
        /// The energies of the frames that the warm-up holds.
        WARMUP: LONGEST_WARMUP,
        /// Where the arrays end: each of the floats from here on stands alone.
        SINGLES: 0,
        FRAME_OVERLAP,
        PRE_EMPHASIS,
        ACTIVATION_RATIO,
        RELEASE_RATIO,
        MIN_SPEECH_ENERGY,
        NOISE_SMOOTHING,
        ENERGY_FLOOR,
        /// The weight that raises the noise floor during speech.
        SPEECH_FLOOR_RISE,
        /// The last sample.
        PRE_EMPHASIS_PREV,
        NOISE_FLOOR,
        /// The open segment's energy total, 0 where none is open.
        ENERGY_SUM,
    }
}

/// Places among a filter's words; those of floats are their bits.
pub mod filter {
    use super::stage;

    places! {
        HIGHPASS_CUTOFF_HZ,
        SAMPLE_RATE_HZ,
        DC_BIAS_ALPHA,
        /// A flag.
        ENABLE_DC_REMOVAL,
        /// A flag.
        ENABLE_HIGHPASS,
        /// A flag.
        FOURTH_ORDER,
        FIRST_STAGE: stage::LENGTH,
        SECOND_STAGE: stage::LENGTH,
        BIAS,
    }
}

/// Places in a stage: its coefficients, then what it remembers.
pub mod stage {
    places! {
        B0,
        B1,
        B2,
        A1,
        A2,
        X1,
        X2,
        Y1,
        Y2,
    }
}

/// Places in a row.
pub mod row {
    places! {
        START_SAMPLE,
        END_SAMPLE,
        START_TIME,
        END_TIME,
        /// The scores of its loud frames.
        SCORE_TOTAL,
        LOUD_FRAMES,
        /// The f32's bits.
        MEAN_ENERGY,
    }
}
