//! The filter by `f32` arithmetic in the order of the original's `Biquad::process` and `update_dc_bias`, and what 01 says is refused.
//!
//! The original keeps its memory to itself and takes no coefficients. This judge takes any state, as words; the runs hold it to the original.

use std::ops::Range;

use fallowcart::layout::{filter, stage};
use fallowcart::{Filter, HighpassOrder, PreprocessingConfig};

pub type State = [u32; Filter::STATE_WORDS];

/// Where the stages are, and in each what it remembers.
pub const STAGES: [usize; 2] = [filter::FIRST_STAGE, filter::SECOND_STAGE];
pub const MEMORY: Range<usize> = stage::X1..stage::LENGTH;

/// The words that are 0 or 1.
pub const FLAGS: [usize; 3] = [
    filter::ENABLE_DC_REMOVAL,
    filter::ENABLE_HIGHPASS,
    filter::FOURTH_ORDER,
];

/// The ranges of b0, b1, b2, a1, a2.
pub const RANGES: [(f32, f32); 5] = [
    (0.0, 1.0),
    (-2.0, 0.0),
    (0.0, 1.0),
    (-2.0, 2.0),
    (-1.0, 1.0),
];

pub const NAMES: [&str; 5] = ["b0", "b1", "b2", "a1", "a2"];

/// Which coefficients of a stage are NaN or outside their range.
pub fn outside(stage: [f32; 5]) -> impl Iterator<Item = usize> {
    (0..5).filter(move |&n| !(RANGES[n].0..=RANGES[n].1).contains(&stage[n]))
}

/// The first of 20 to 24 that is met, or 0.
pub fn opening(config: PreprocessingConfig, coefficients: [[f32; 5]; 2]) -> u64 {
    let half = config.sample_rate_hz as f32 / 2.0;
    let used = match config.highpass_order {
        HighpassOrder::SecondOrder => 1,
        HighpassOrder::FourthOrder => 2,
    };
    if !(8_000..=48_000).contains(&config.sample_rate_hz) {
        20
    } else if !config.highpass_cutoff_hz.is_finite() || config.highpass_cutoff_hz < 20.0 {
        21
    } else if config.highpass_cutoff_hz >= half {
        22
    } else if config.dc_bias_alpha.is_nan()
        || config.dc_bias_alpha <= 0.0
        || config.dc_bias_alpha >= 1.0
    {
        23
    } else if coefficients[..used]
        .iter()
        .any(|&stage| outside(stage).next().is_some())
    {
        24
    } else {
        0
    }
}

/// The state after opening.
pub fn opened(config: PreprocessingConfig, coefficients: [[f32; 5]; 2]) -> State {
    let mut state = [0; Filter::STATE_WORDS];
    state[filter::HIGHPASS_CUTOFF_HZ] = config.highpass_cutoff_hz.to_bits();
    state[filter::SAMPLE_RATE_HZ] = config.sample_rate_hz;
    state[filter::DC_BIAS_ALPHA] = config.dc_bias_alpha.to_bits();
    state[filter::ENABLE_DC_REMOVAL] = u32::from(config.enable_dc_removal);
    state[filter::ENABLE_HIGHPASS] = u32::from(config.enable_highpass);
    state[filter::FOURTH_ORDER] = u32::from(config.highpass_order == HighpassOrder::FourthOrder);
    for (at, coefficients) in STAGES.into_iter().zip(coefficients) {
        state[at..][..stage::X1].copy_from_slice(&coefficients.map(f32::to_bits));
    }
    state
}

fn floats<const N: usize>(state: &State, at: usize) -> [f32; N] {
    std::array::from_fn(|n| f32::from_bits(state[at + n]))
}

/// The places of the remembered numbers: x1, x2, y1, y2 of each stage, and the bias.
pub fn remembered() -> impl Iterator<Item = usize> {
    STAGES
        .into_iter()
        .flat_map(|at| MEMORY.map(move |n| at + n))
        .chain([filter::BIAS])
}

/// Refusal 27's words.
pub fn malformed(state: &State) -> bool {
    let config = PreprocessingConfig {
        highpass_cutoff_hz: f32::from_bits(state[filter::HIGHPASS_CUTOFF_HZ]),
        sample_rate_hz: state[filter::SAMPLE_RATE_HZ],
        dc_bias_alpha: f32::from_bits(state[filter::DC_BIAS_ALPHA]),
        enable_dc_removal: state[filter::ENABLE_DC_REMOVAL] == 1,
        enable_highpass: state[filter::ENABLE_HIGHPASS] == 1,
        highpass_order: match state[filter::FOURTH_ORDER] {
            0 => HighpassOrder::SecondOrder,
            _ => HighpassOrder::FourthOrder,
        },
    };
    let coefficients = STAGES.map(|at| floats(state, at));
    FLAGS.into_iter().any(|at| state[at] > 1)
        || opening(config, coefficients) != 0
        || remembered().any(|at| !f32::from_bits(state[at]).is_finite())
}

/// The state after a reset.
pub fn reset(mut state: State) -> State {
    remembered().for_each(|at| state[at] = 0);
    state
}

/// The operation whose result is not finite.
#[derive(Clone, Copy, Debug, PartialEq, Eq)]
pub enum Operation {
    Inner,
    Outer,
    Feedback,
    Output,
    /// Its operands are in the domain or have a factor of at most 1, so it has to be finite.
    Other,
}

pub struct Overflow {
    pub place: usize,
    pub stage: usize,
    pub operation: Operation,
}

/// What a block gives: the outputs, up to an overflow where there is one, and then that, or else the new state.
pub struct Processed {
    pub output: Vec<f32>,
    pub end: Result<State, Overflow>,
}

/// A block of samples that are in the domain, from a state that is not malformed.
pub fn process(mut state: State, samples: &[f32], is_silence: Option<bool>) -> Processed {
    let [alpha] = floats(&state, filter::DC_BIAS_ALPHA);
    let [mut bias] = floats(&state, filter::BIAS);
    let removal = state[filter::ENABLE_DC_REMOVAL] == 1;
    if removal && is_silence != Some(false) && !samples.is_empty() {
        // Rust's sum of floats starts from -0.
        let sum = samples.iter().fold(-0.0, |sum: f32, sample| sum + sample);
        bias = alpha.mul_add(bias, (1.0 - alpha) * (sum / samples.len() as f32));
        state[filter::BIAS] = bias.to_bits();
    }
    let stages = match (state[filter::ENABLE_HIGHPASS], state[filter::FOURTH_ORDER]) {
        (0, _) => 0,
        (_, order) => 1 + order as usize,
    };
    let mut output = Vec::with_capacity(samples.len());
    for (place, &sample) in samples.iter().enumerate() {
        let mut next = if removal { sample - bias } else { sample };
        let mut overflow = (!next.is_finite()).then_some((0, Operation::Other));
        for (stage, at) in STAGES.into_iter().enumerate().take(stages) {
            let [b0, b1, b2, a1, a2, x1, x2, y1, y2] = floats(&state, at);
            let (last, input) = (b2 * x2, next);
            let inner = b1.mul_add(x1, last);
            let outer = b0.mul_add(input, inner);
            let past = a2 * y2;
            let feedback = a1.mul_add(y1, past);
            next = outer - feedback;
            let operations = [
                (last, Operation::Other),
                (inner, Operation::Inner),
                (outer, Operation::Outer),
                (past, Operation::Other),
                (feedback, Operation::Feedback),
                (next, Operation::Output),
            ];
            let found = operations.iter().find(|(result, _)| !result.is_finite());
            overflow = overflow.or(found.map(|&(_, operation)| (stage, operation)));
            let memory = [input, x1, next, y1].map(f32::to_bits);
            state[at..][MEMORY].copy_from_slice(&memory);
        }
        if let Some((stage, operation)) = overflow {
            let end = Err(Overflow {
                place,
                stage,
                operation,
            });
            return Processed { output, end };
        }
        output.push(next);
    }
    Processed {
        output,
        end: Ok(state),
    }
}
