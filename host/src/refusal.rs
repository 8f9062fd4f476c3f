//! Why a call was refused. docs/REFUSALS.md has the same list for people.

use std::fmt;

use Carries::{Nothing, Place, Rows};

/// What a refusal carries besides its number.
#[derive(Debug, Clone, Copy, PartialEq, Eq)]
pub enum Carries {
    Nothing,
    /// A sample's place in the block.
    Place,
    /// The number of rows needed.
    Rows,
}

/// A number of docs/REFUSALS.md.
#[derive(Debug, Clone, Copy, PartialEq, Eq)]
pub struct Kind {
    pub number: u32,
    pub carries: Carries,
    pub sentence: &'static str,
}

/// Every number that a call can be refused with.
#[rustfmt::skip]
pub const KINDS: &[Kind] = &[
    Kind { number: 1, carries: Nothing, sentence: "the sample rate is not from 8,000 to 48,000 Hz" },
    Kind { number: 2, carries: Nothing, sentence: "the frame duration is not from 1 ns to 1 s" },
    Kind { number: 3, carries: Nothing, sentence: "the frame overlap is not in [0, 1)" },
    Kind { number: 4, carries: Nothing, sentence: "the pre-emphasis is not in [0, 1)" },
    Kind { number: 5, carries: Nothing, sentence: "the release ratio is NaN, or is below 1" },
    Kind { number: 6, carries: Nothing, sentence: "the activation ratio is not finite, or is below the release ratio" },
    Kind { number: 7, carries: Nothing, sentence: "the least energy of speech is not finite, or is negative" },
    Kind { number: 8, carries: Nothing, sentence: "the smoothing of the noise floor is not in [0, 1)" },
    Kind { number: 9, carries: Nothing, sentence: "the energy floor is not finite, or is not above 0" },
    Kind { number: 10, carries: Nothing, sentence: "the least number of speech frames is 0" },
    Kind { number: 11, carries: Nothing, sentence: "a frame has more than 2,048 samples" },
    Kind { number: 12, carries: Nothing, sentence: "the warm-up has more than 300 frames" },
    Kind { number: 13, carries: Nothing, sentence: "the padding is above 1 s, the hangover or the least number of speech frames above 10,000, or the stream starts at 2^63 ns or later" },
    Kind { number: 14, carries: Nothing, sentence: "the window has not a frame's length, an entry of it is not in [0, 1], or the rise weight is not in [0.5, 1]" },
    Kind { number: 15, carries: Nothing, sentence: "the block is longer than 1,024 samples" },
    Kind { number: 16, carries: Place, sentence: "a sample is not finite, or its magnitude is above 65,536" },
    Kind { number: 17, carries: Nothing, sentence: "the stream would be longer than 2^40 samples" },
    Kind { number: 18, carries: Rows, sentence: "the call reports more rows than fit" },
    Kind { number: 19, carries: Nothing, sentence: "the detector's state is malformed" },
    Kind { number: 20, carries: Nothing, sentence: "the sample rate is not from 8,000 to 48,000 Hz" },
    Kind { number: 21, carries: Nothing, sentence: "the high-pass cutoff is not finite, or is below 20 Hz" },
    Kind { number: 22, carries: Nothing, sentence: "the high-pass cutoff is not below half the sample rate" },
    Kind { number: 23, carries: Nothing, sentence: "the smoothing of the DC bias is not in (0, 1)" },
    Kind { number: 24, carries: Nothing, sentence: "a filter coefficient is NaN or outside its range" },
    Kind { number: 25, carries: Nothing, sentence: "the output is shorter than the block" },
    Kind { number: 26, carries: Place, sentence: "the filter overflows" },
    Kind { number: 27, carries: Nothing, sentence: "the filter's state is malformed" },
];

/// A refusal of the proved library, by its number.
///
/// A refused call changes nothing; the one exception of a detector or filter that is open is 26, and [`Filter::process`](crate::Filter::process) says what
/// it leaves.
///
/// ```
/// use fallowcart::{Filter, PreprocessingConfig};
///
/// let config = PreprocessingConfig { highpass_cutoff_hz: 10.0, ..Default::default() };
/// let refusal = Filter::new(config).unwrap_err();
/// assert_eq!(refusal.number(), 21);
/// assert_eq!(refusal.to_string(), "the high-pass cutoff is not finite, or is below 20 Hz (refusal 21)");
/// ```
#[derive(Debug, Clone, Copy, PartialEq, Eq)]
pub struct Refusal {
    kind: &'static Kind,
    carried: u64,
}

impl Refusal {
    /// Reads the door's packed answer: the number in its low byte, and above it what it carries. Accepted, it answers what was carried.
    ///
    /// A number without a sentence, or something carried where the number carries nothing, would mean that another library was linked, so it is not
    /// taken for an answer.
    pub(crate) fn check(answer: u64) -> Result<u64, Refusal> {
        let (number, carried) = ((answer & 0xff) as u32, answer >> 8);
        if number == 0 {
            return Ok(carried);
        }
        let kind = KINDS.iter().find(|kind| kind.number == number);
        let kind = kind.filter(|kind| kind.carries != Nothing || carried == 0);
        let kind = kind.unwrap_or_else(|| panic!("the library's refusal {answer:#x}"));
        Err(Refusal { kind, carried })
    }

    /// The number, which stays the same from one version to the next.
    pub fn number(&self) -> u32 {
        self.kind.number
    }

    /// The place in the block of the sample that was refused, counted from 0.
    pub fn place(&self) -> Option<usize> {
        (self.kind.carries == Place).then_some(self.carried as usize)
    }

    /// How many rows the refused call would have reported.
    pub fn rows_needed(&self) -> Option<usize> {
        (self.kind.carries == Rows).then_some(self.carried as usize)
    }
}

impl fmt::Display for Refusal {
    fn fmt(&self, f: &mut fmt::Formatter<'_>) -> fmt::Result {
        f.write_str(self.kind.sentence)?;
        if let Some(place) = self.place() {
            write!(f, ", at sample {place} of the block")?;
        }
        if let Some(rows) = self.rows_needed() {
            write!(f, ", which are {rows}")?;
        }
        write!(f, " (refusal {})", self.kind.number)
    }
}

impl std::error::Error for Refusal {}
