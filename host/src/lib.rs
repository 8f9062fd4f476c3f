//! The hub's voice detector, proved in Rattle, for Rust.
//!
//! What is here calls the compiled library through its C door, and adds only the Rust types. No word of the door can break memory, so every function
//! is safe. A [`Detector`] finds speech, a [`Filter`] cleans sound before it; a [`Refusal`] says why a call was refused.

mod detector;
mod door;
mod filter;
pub mod layout;
pub mod raw;
pub mod refusal;
mod settings;

pub use detector::{Detected, Detector, DetectorState, SpeechChunk, VadStats};
pub use filter::{Filter, HighpassOrder, PreprocessingConfig, VadContext};
pub use refusal::Refusal;
pub use settings::VadConfig;

/// Arithmetic of `f32` that is rounded once, to the nearest number, ties to even. `None` stands for every answer that is not a finite number.
pub mod float {
    use crate::door;

    /// What the door answers where there is no number: the first value that is no pattern of 32 bits.
    const NO_NUMBER: u64 = 1 << 32;

    /// a * b + c, rounded once. `None` where an operand is NaN or infinite, and where the result overflows.
    ///
    /// An exact zero from unlike signs is +0; two zeros of like sign keep it.
    ///
    /// ```
    /// use fallowcart::float::mul_add;
    /// assert_eq!(mul_add(2.0, 3.0, 0.5), Some(6.5));
    /// assert_eq!(mul_add(f32::MAX, 2.0, 0.0), None);
    /// ```
    pub fn mul_add(a: f32, b: f32, c: f32) -> Option<f32> {
        mul_add_bits(a.to_bits(), b.to_bits(), c.to_bits()).map(f32::from_bits)
    }

    /// The square root. `None` where x is NaN, infinite or negative; the root of -0 is -0.
    ///
    /// ```
    /// use fallowcart::float::sqrt;
    /// assert_eq!(sqrt(6.25), Some(2.5));
    /// assert_eq!(sqrt(-1.0), None);
    /// ```
    pub fn sqrt(x: f32) -> Option<f32> {
        sqrt_bits(x.to_bits()).map(f32::from_bits)
    }

    /// [`mul_add`] by bit patterns.
    pub fn mul_add_bits(a: u32, b: u32, c: u32) -> Option<u32> {
        number(door::fallowcart_fused_bits(a, b, c))
    }

    /// [`sqrt`] by bit patterns.
    pub fn sqrt_bits(x: u32) -> Option<u32> {
        number(door::fallowcart_root_bits(x))
    }

    /// Any word other than a pattern and `NO_NUMBER` would mean that another library was linked, so it is not taken for an answer.
    fn number(word: u64) -> Option<u32> {
        match u32::try_from(word) {
            Ok(bits) => Some(bits),
            Err(_) => {
                assert_eq!(word, NO_NUMBER, "the library's word for no number");
                None
            }
        }
    }
}

/// Floats as whole numbers, and a count as a float, as Rust's `as` has them: 0 for NaN and below 0, the largest `u64` above.
pub mod whole {
    use crate::door;

    /// `n as f32`: the nearest float, a tie to the even one.
    pub fn nearest(n: u64) -> f32 {
        door::fallowcart_nearest(n)
    }

    /// `x.round() as u64`: half away from zero.
    pub fn round_f32(x: f32) -> u64 {
        door::fallowcart_round_f32(x)
    }

    /// `x.round() as u64`: half away from zero.
    pub fn round_f64(x: f64) -> u64 {
        door::fallowcart_round_f64(x)
    }

    /// `x.ceil() as u64`.
    pub fn ceil_f64(x: f64) -> u64 {
        door::fallowcart_ceil_f64(x)
    }
}

/// The score of a ratio, 0 to 1,024: the largest k with 10^k <= ratio^1024; 0 below 1 and for NaN, 1,024 for plus infinity.
///
/// ```
/// assert_eq!(fallowcart::score(1.0), 0);
/// assert_eq!(fallowcart::score(10.0), 1024);
/// ```
pub fn score(ratio: f32) -> u64 {
    door::fallowcart_score_bits(ratio.to_bits())
}
