//! Document 01's list of what makes a detector's state malformed, read from the memory clause by clause; and before it the name of the layout, which is the
//! port's own.

use std::time::Duration;

use fallowcart::VadConfig;
use fallowcart::layout::{LAYOUT, float, number};

use crate::common::for_original::ForOriginal;
use crate::common::original::{padding_samples, warmup_frames};
use crate::detector::memory::Memory;

const NANOS: u64 = 1_000_000_000;

/// 'at most 2^40 samples received'
const LAST: u64 = 1 << 40;

fn flag(word: u64) -> Option<bool> {
    match word {
        0 => Some(false),
        1 => Some(true),
        _ => None,
    }
}

/// The settings in the memory, where each number is one of its type.
fn settings(memory: &Memory) -> Option<VadConfig> {
    let (n, x) = (&memory.numbers, &memory.floats);
    Some(VadConfig {
        sample_rate: u32::try_from(n[number::SAMPLE_RATE]).ok()?,
        frame_duration: Duration::from_nanos(n[number::FRAME_DURATION]),
        frame_overlap: x[float::FRAME_OVERLAP],
        pre_emphasis: flag(n[number::HAS_PRE_EMPHASIS])?.then_some(x[float::PRE_EMPHASIS]),
        activation_ratio: x[float::ACTIVATION_RATIO],
        release_ratio: x[float::RELEASE_RATIO],
        min_speech_energy: x[float::MIN_SPEECH_ENERGY],
        noise_smoothing: x[float::NOISE_SMOOTHING],
        energy_floor: x[float::ENERGY_FLOOR],
        hangover_frames: n[number::HANGOVER_FRAMES] as usize,
        speech_padding: Duration::from_nanos(n[number::SPEECH_PADDING]),
        min_speech_frames: n[number::MIN_SPEECH_FRAMES] as usize,
        stream_start_time: n[number::STREAM_START_TIME],
    })
}

/// 1 to 10 and 13: what does not rest on lengths.
fn in_domain(c: &VadConfig) -> bool {
    let unit = |x: f32| (0.0..1.0).contains(&x);
    (8_000..=48_000).contains(&c.sample_rate)
        && (1..=u128::from(NANOS)).contains(&c.frame_duration.as_nanos())
        && unit(c.frame_overlap)
        && c.pre_emphasis.is_none_or(unit)
        && c.release_ratio >= 1.0
        && c.activation_ratio.is_finite()
        && c.activation_ratio >= c.release_ratio
        && c.min_speech_energy.is_finite()
        && c.min_speech_energy >= 0.0
        && unit(c.noise_smoothing)
        && c.energy_floor.is_finite()
        && c.energy_floor > 0.0
        && (1..=10_000).contains(&c.min_speech_frames)
        && c.speech_padding.as_nanos() <= u128::from(NANOS)
        && c.hangover_frames <= 10_000
        && c.stream_start_time < 1 << 63
}

/// Whether the memory has the layout that is in use.
pub fn named(memory: &Memory) -> bool {
    memory.numbers[number::LAYOUT] == LAYOUT
}

/// Whether the state is not malformed.
pub fn sound(memory: &Memory) -> bool {
    if !named(memory) {
        return false;
    }
    let (n, x) = (&memory.numbers, &memory.floats);
    let (Some(config), Some(warming), Some(open)) = (
        settings(memory),
        flag(n[number::WARMING]),
        flag(n[number::IS_OPEN]),
    ) else {
        return false;
    };
    if !in_domain(&config) {
        return false;
    }
    // 'a derived number it keeps isn't theirs'; 11 and 12
    let original = config.for_original();
    let frame = original.frame_length_samples().expect("in the domain");
    let hop = original.hop_length_samples().expect("in the domain");
    let warmup = warmup_frames(hop, config.sample_rate);
    let padding = padding_samples(config.speech_padding, config.sample_rate);
    let lengths = [
        number::FRAME_LENGTH,
        number::HOP_LENGTH,
        number::WARMUP_FRAMES,
        number::PADDING_SAMPLES,
    ];
    if lengths.map(|place| n[place]) != [frame, hop, warmup, padding].map(|length| length as u64)
        || frame > 2_048
        || warmup > 300
    {
        return false;
    }
    // 14
    let within = |x: f32, low: f32, high: f32| low <= x && x <= high;
    if !x[float::WINDOW..][..frame]
        .iter()
        .all(|x| within(*x, 0.0, 1.0))
        || !within(x[float::SPEECH_FLOOR_RISE], 0.5, 1.0)
    {
        return false;
    }
    let [carry, start, received] = [
        n[number::CARRY_LEN],
        n[number::CARRY_START],
        n[number::PROCESSED_SAMPLES],
    ];
    if carry >= frame as u64 || u128::from(start) + u128::from(carry) != u128::from(received) {
        return false;
    }
    let carried = &x[float::CARRY..][..carry as usize];
    if !carried.iter().all(|x| within(*x, -131_072.0, 131_072.0))
        || !within(x[float::PRE_EMPHASIS_PREV], -65_536.0, 65_536.0)
    {
        return false;
    }
    let [last_end, rows, talk] = [
        n[number::LAST_SEGMENT_END],
        n[number::ROWS_REPORTED],
        n[number::TALK_SAMPLES],
    ];
    let floor = x[float::NOISE_FLOOR];
    if !floor.is_finite()
        || floor < config.energy_floor
        || received > LAST
        || last_end > received
        || talk > last_end
        || rows > received
    {
        return false;
    }
    let held = n[number::HELD];
    if warming
        && (held >= warmup as u64
            || held * hop as u64 != start
            || !x[float::WARMUP..][..held as usize]
                .iter()
                .all(|x| within(*x, 0.0, 131_072.0))
            || open)
    {
        return false;
    }
    let [begin, last_loud, score, loud, silence] = [
        n[number::START_SAMPLE],
        n[number::LAST_END_SAMPLE],
        n[number::SCORE_TOTAL],
        n[number::LOUD_FRAMES],
        n[number::SILENCE_RUN],
    ];
    !open
        || (last_end <= begin
            && begin <= received
            && last_loud <= received
            && (1..=received).contains(&loud)
            && score <= 1_024 * loud
            && within(x[float::ENERGY_SUM], 0.0, 2f32.powi(60))
            && silence <= config.hangover_frames as u64)
}
