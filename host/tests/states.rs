//! Damaged states: each is answered as document 01 says, and nothing is written. Random words, single bits flipped in sound states, every clause of 01's list
//! broken alone, states of another layout, memory of other lengths.
//!
//! The long run: `tools/host test --release --test all -- --ignored --nocapture states::`.

mod judge;

use std::time::Duration;

use fallowcart::layout::number::STATE;
use fallowcart::layout::{FLOATS, LAYOUT, NUMBERS, ROW_FIELDS, float, number};
use fallowcart::{Detector, DetectorState, VadConfig, raw};

use crate::common::LONGEST;
use crate::common::long::long;
use crate::common::random::Random;
use crate::common::tally::{Tally, counts};
use crate::detector::cases::{Cutting, Sound};
use crate::detector::memory::{Memory, Reading, unpacked};

const READINGS: [Reading; 6] = [
    raw::vad_undecided_from,
    raw::vad_analyzed_until,
    raw::vad_active_segment_start_sample,
    raw::vad_rows_reported,
    raw::vad_talk_samples,
    raw::vad_noise_floor,
];

counts! {
    /// The states, each changed from a sound one or made at random.
    Met {
        States: "states",
        /// Refused by 19 in every call and reading, with nothing written.
        Malformed: "malformed states",
        /// Of those, refused by their first number alone: nothing else of them was looked at.
        Unnamed: "of another layout",
        /// The readings are of what stands there, and a call is not refused by 19.
        Sound: "sound states",
        /// Of those, not refused by 17 or 18 either.
        Accepted: "accepted calls",
    }
}

type Seen = Tally<Met>;

/// Asks everything of a state, and holds the answers to the judge. A malformed state is refused before anything else that could be refused is looked at: a
/// block that is too long, a bad sample, a start that no reset allows. The memory is as it was afterwards.
fn ask(memory: &mut Memory, kept: &mut Memory, random: &mut Random, seen: &mut Seen) {
    seen[Met::States] += 1;
    let mut rows = [77; 64];
    kept.numbers.copy_from_slice(&memory.numbers);
    kept.floats.copy_from_slice(&memory.floats);
    if judge::sound(memory) {
        seen[Met::Sound] += 1;
        let (numbers, readings) = (&memory.numbers, memory.readings());
        assert_eq!(readings.analyzed, numbers[number::CARRY_START]);
        assert_eq!(
            readings.open,
            (numbers[number::IS_OPEN] == 1).then_some(numbers[number::START_SAMPLE])
        );
        assert_eq!(
            [readings.rows, readings.talk],
            [
                numbers[number::ROWS_REPORTED],
                numbers[number::TALK_SAMPLES]
            ]
        );
        assert_eq!(readings.floor, memory.floats[float::NOISE_FLOOR].to_bits());
        let block = [0.25; 40];
        let length = random.within(0, 40) as usize;
        let (refusal, carried) = unpacked(match random.within(0, 2) {
            0 => kept.detect(&block[..length], &mut rows),
            1 => kept.flush(&mut rows),
            _ => kept.reset(random.word() >> 1),
        });
        let past = memory.received() + length as u64 > 1 << 40;
        match refusal {
            0 => seen[Met::Accepted] += 1,
            17 => assert!(past, "{:?}", memory.numbers),
            18 => assert!(
                carried as usize > rows.len() / ROW_FIELDS,
                "{:?}",
                memory.numbers
            ),
            _ => panic!("{refusal}: {:?}", memory.numbers),
        }
        return;
    }
    seen[Met::Malformed] += 1;
    seen.count(Met::Unnamed, !judge::named(memory));
    let numbers = &memory.numbers;
    for reading in READINGS {
        assert_eq!(reading(numbers, &memory.floats), 19, "{numbers:?}");
    }
    let block = [f32::NAN; LONGEST + 1];
    let length = random.pick(&[0, 1, LONGEST, LONGEST + 1]);
    assert_eq!(
        memory.detect(&block[..length], &mut rows),
        19,
        "{:?}",
        memory.numbers
    );
    assert_eq!(memory.flush(&mut rows), 19);
    assert_eq!(memory.reset(random.pick(&[0, u64::MAX])), 19);
    assert!(memory.same(kept), "a refused call writes nothing");
    assert_eq!(rows, [77; 64]);
}

/// A state somewhere in a run.
fn reached(random: &mut Random) -> Memory {
    let mut config = random.detector_config();
    // Segments that open are wanted here.
    config.energy_floor = config.energy_floor.min(1.0);
    config.min_speech_energy = config.min_speech_energy.min(1.0);
    let mut memory = opened(&config);
    let mut sound = Sound::new(Random::new(random.word()), &config);
    let cutting = Cutting::new(random);
    let mut block = [0.0; LONGEST];
    let mut rows = vec![0; ROW_FIELDS * 2_000];
    for _ in 0..random.within(0, 60) {
        if random.one_in(40) {
            assert_eq!(memory.flush(&mut rows), 0);
        }
        let length = cutting.next_length(random);
        for sample in &mut block[..length] {
            *sample = sound.next_sample();
        }
        assert_eq!(memory.detect(&block[..length], &mut rows), 0);
    }
    assert!(judge::sound(&memory), "{config:?}: {:?}", memory.numbers);
    memory
}

fn flip(memory: &mut Memory, random: &mut Random) -> (bool, usize, u32) {
    let number = random.one_in(2);
    // Most floats are those of the arrays; the single ones are met as often.
    let place = match (number, random.one_in(2)) {
        (true, _) => random.within(0, NUMBERS as i32 - 1),
        (false, true) => random.within(float::SINGLES as i32, FLOATS as i32 - 1),
        (false, false) => random.within(0, FLOATS as i32 - 1),
    } as usize;
    let bit = random.within(0, if number { 63 } else { 31 }) as u32;
    toggle(memory, (number, place, bit));
    (number, place, bit)
}

fn toggle(memory: &mut Memory, (number, place, bit): (bool, usize, u32)) {
    if number {
        memory.numbers[place] ^= 1 << bit;
    } else {
        memory.floats[place] = f32::from_bits(memory.floats[place].to_bits() ^ 1 << bit);
    }
}

/// One sound state, and so many single bits flipped in it.
fn flips(seed: u64, many: u64, seen: &mut Seen) {
    let mut random = Random::new(seed);
    let mut memory = reached(&mut random);
    let mut kept = memory.clone();
    for _ in 0..many {
        let place = flip(&mut memory, &mut random);
        ask(&mut memory, &mut kept, &mut random, seen);
        toggle(&mut memory, place);
    }
}

/// Where floats are that every state looks at: the single ones, and those from the start of each array on.
const NEAR: [usize; 7] = [
    float::FRAME_OVERLAP,
    float::MIN_SPEECH_ENERGY,
    float::NOISE_FLOOR,
    float::ENERGY_SUM,
    float::WINDOW,
    float::CARRY,
    float::WARMUP,
];

/// States of random words: all but the layout's name, or a few in a sound state.
fn words(seed: u64, many: u64, seen: &mut Seen) {
    let mut random = Random::new(seed);
    let start = reached(&mut random);
    let mut kept = start.clone();
    for _ in 0..many {
        let mut memory = start.clone();
        if random.one_in(4) {
            memory
                .numbers
                .fill_with(|| random.word() >> random.pick(&[0, 20, 40, 62]));
            memory.numbers[number::LAYOUT] = LAYOUT;
            memory
                .floats
                .fill_with(|| f32::from_bits(random.word() as u32));
        } else {
            for _ in 0..random.within(1, 4) {
                if random.one_in(2) {
                    memory.numbers
                        [random.within(STATE.start as i32, STATE.end as i32 - 1) as usize] =
                        random.word() >> random.within(0, 63);
                } else {
                    let place = random.pick(&NEAR) + random.within(0, 6) as usize;
                    memory.floats[place.min(FLOATS - 1)] = f32::from_bits(random.word() as u32);
                }
            }
        }
        ask(&mut memory, &mut kept, &mut random, seen);
    }
}

/// 8 kHz, frames of 80 samples without overlap.
fn plain() -> VadConfig {
    VadConfig {
        sample_rate: 8_000,
        frame_duration: Duration::from_millis(10),
        frame_overlap: 0.0,
        hangover_frames: 5,
        ..VadConfig::default()
    }
}

fn opened(config: &VadConfig) -> Memory {
    let mut memory = Memory::old();
    let (window, rise) = (
        config.window().expect("accepted"),
        config.speech_floor_rise().expect("accepted"),
    );
    assert_eq!(memory.open(config, &window, rise), 0);
    memory
}

/// Two frames and 20 samples heard: warming, with a carry and two energies.
fn warming() -> Memory {
    let mut memory = opened(&plain());
    assert_eq!(memory.detect(&[0.125; 180], &mut []), 0);
    assert!(
        memory.warming()
            && memory.numbers[number::CARRY_LEN] == 20
            && memory.numbers[number::HELD] == 2
    );
    memory
}

/// A segment is open.
fn open() -> Memory {
    let mut memory = opened(&plain());
    let mut rows = [0; 10 * ROW_FIELDS];
    for loud in [false, false, false, false, true, true] {
        let block: Vec<f32> = (0..1_020)
            .map(|n| if loud { [0.5, -0.5][n % 2] } else { 0.001 })
            .collect();
        assert_eq!(memory.detect(&block, &mut rows), 0);
    }
    assert!(
        !memory.warming()
            && memory.numbers[number::IS_OPEN] == 1
            && memory.numbers[number::CARRY_LEN] > 0
    );
    memory
}

/// No segment is open, one was reported.
fn closed() -> Memory {
    let mut memory = open();
    let mut rows = [0; 10 * ROW_FIELDS];
    for _ in 0..3 {
        assert_eq!(memory.detect(&[0.001; 1_020], &mut rows), 0);
    }
    assert!(
        !memory.warming()
            && memory.numbers[number::IS_OPEN] == 0
            && memory.numbers[number::ROWS_REPORTED] == 1
    );
    memory
}

/// A state to start from, and what is done to it.
type Start = fn() -> Memory;
type Damage = fn(&mut Memory);

/// What is broken, in which states, and how.
type Broken<'a> = (&'a str, &'a [Start], Damage);

/// Every clause of 01's list, broken. A setting that a length rests on is broken with that length, where there is one.
#[test]
fn each_clause_alone() {
    let all: &[Start] = &[warming, open, closed];
    let cases: &[Broken] = &[
        ("1", all, |m| m.numbers[number::SAMPLE_RATE] = 7_999),
        ("1, above", all, |m| {
            m.numbers[number::SAMPLE_RATE] = 48_001;
            m.numbers[number::FRAME_LENGTH] = 480;
            m.numbers[number::HOP_LENGTH] = 480;
            m.numbers[number::PADDING_SAMPLES] = 2_400;
        }),
        ("1, past 32 bits", all, |m| {
            m.numbers[number::SAMPLE_RATE] += 1 << 32
        }),
        ("2", all, |m| m.numbers[number::FRAME_DURATION] = 0),
        ("2, above", all, |m| {
            m.numbers[number::FRAME_DURATION] = 1_000_000_001
        }),
        ("3", all, |m| m.floats[float::FRAME_OVERLAP] = -0.001),
        ("3, above", all, |m| m.floats[float::FRAME_OVERLAP] = 1.0),
        ("3, NaN", all, |m| m.floats[float::FRAME_OVERLAP] = f32::NAN),
        ("4", all, |m| m.floats[float::PRE_EMPHASIS] = 1.0),
        ("4, NaN", all, |m| m.floats[float::PRE_EMPHASIS] = f32::NAN),
        ("5", all, |m| m.floats[float::RELEASE_RATIO] = 0.999),
        ("5, NaN", all, |m| m.floats[float::RELEASE_RATIO] = f32::NAN),
        ("6", all, |m| {
            m.floats[float::ACTIVATION_RATIO] = f32::INFINITY
        }),
        ("6, below release", all, |m| {
            m.floats[float::ACTIVATION_RATIO] = 1.2
        }),
        ("7", all, |m| m.floats[float::MIN_SPEECH_ENERGY] = -1e-45),
        ("7, infinite", all, |m| {
            m.floats[float::MIN_SPEECH_ENERGY] = f32::INFINITY
        }),
        ("8", all, |m| m.floats[float::NOISE_SMOOTHING] = 1.0),
        ("8, NaN", all, |m| {
            m.floats[float::NOISE_SMOOTHING] = f32::NAN
        }),
        ("9", all, |m| m.floats[float::ENERGY_FLOOR] = 0.0),
        ("9, NaN", all, |m| m.floats[float::ENERGY_FLOOR] = f32::NAN),
        ("10", all, |m| m.numbers[number::MIN_SPEECH_FRAMES] = 0),
        ("11", all, |m| {
            m.numbers[number::FRAME_DURATION] = 300_000_000;
            m.numbers[number::FRAME_LENGTH] = 2_400;
            m.numbers[number::HOP_LENGTH] = 2_400;
            m.numbers[number::WARMUP_FRAMES] = 1;
        }),
        ("12", all, |m| {
            m.numbers[number::FRAME_DURATION] = 875_000;
            m.numbers[number::FRAME_LENGTH] = 7;
            m.numbers[number::HOP_LENGTH] = 7;
            m.numbers[number::WARMUP_FRAMES] = 343;
        }),
        ("13, padding", all, |m| {
            m.numbers[number::SPEECH_PADDING] = 1_000_000_001;
            m.numbers[number::PADDING_SAMPLES] = 8_000;
        }),
        ("13, hangover", all, |m| {
            m.numbers[number::HANGOVER_FRAMES] = 10_001
        }),
        ("13, least frames", all, |m| {
            m.numbers[number::MIN_SPEECH_FRAMES] = 10_001
        }),
        ("13, start", all, |m| {
            m.numbers[number::STREAM_START_TIME] = 1 << 63
        }),
        ("14, window", all, |m| {
            m.floats[float::WINDOW + 40] = 1.000_000_1
        }),
        ("14, NaN in the window", all, |m| {
            m.floats[float::WINDOW + 79] = f32::NAN
        }),
        ("14, below", all, |m| m.floats[float::WINDOW + 40] = -1e-45),
        ("14, rise", all, |m| {
            m.floats[float::SPEECH_FLOOR_RISE] = 0.499_999_97
        }),
        ("14, rise above", all, |m| {
            m.floats[float::SPEECH_FLOOR_RISE] = 1.000_000_1
        }),
        ("a flag", all, |m| m.numbers[number::HAS_PRE_EMPHASIS] = 2),
        ("a flag", all, |m| m.numbers[number::WARMING] += 2),
        ("a flag", all, |m| m.numbers[number::IS_OPEN] += 2),
        ("frame's length", all, |m| {
            m.numbers[number::FRAME_LENGTH] += 1
        }),
        ("hop's length", all, |m| m.numbers[number::HOP_LENGTH] -= 1),
        ("warm-up frames", all, |m| {
            m.numbers[number::WARMUP_FRAMES] += 1
        }),
        ("padding in samples", all, |m| {
            m.numbers[number::PADDING_SAMPLES] ^= 1
        }),
        ("the carry is a frame long", &[closed, open], |m| {
            m.numbers[number::CARRY_START] = m.numbers[number::PROCESSED_SAMPLES] - 80;
            m.numbers[number::CARRY_LEN] = 80;
        }),
        ("carry start plus carry", all, |m| {
            m.numbers[number::CARRY_START] += 1
        }),
        ("carry start plus carry", &[closed, open], |m| {
            m.numbers[number::CARRY_LEN] -= 1
        }),
        ("a carried value", all, |m| {
            m.floats[float::CARRY] = 131_073.0
        }),
        ("a carried value", all, |m| {
            m.floats[float::CARRY] = f32::NEG_INFINITY
        }),
        ("the last sample", all, |m| {
            m.floats[float::PRE_EMPHASIS_PREV] = f32::NAN
        }),
        ("the last sample", all, |m| {
            m.floats[float::PRE_EMPHASIS_PREV] = -65_537.0
        }),
        ("the floor", all, |m| {
            m.floats[float::NOISE_FLOOR] = f32::INFINITY
        }),
        ("the floor", all, |m| {
            m.floats[float::NOISE_FLOOR] = 0.000_099
        }),
        ("received", &[closed], |m| {
            m.numbers[number::CARRY_START] = (1 << 40) + 1 - m.numbers[number::CARRY_LEN];
            m.numbers[number::PROCESSED_SAMPLES] = (1 << 40) + 1;
        }),
        ("last segment end", &[closed], |m| {
            m.numbers[number::LAST_SEGMENT_END] = m.numbers[number::PROCESSED_SAMPLES] + 1
        }),
        ("talk", all, |m| {
            m.numbers[number::TALK_SAMPLES] = m.numbers[number::LAST_SEGMENT_END] + 1
        }),
        ("rows", all, |m| {
            m.numbers[number::ROWS_REPORTED] = m.numbers[number::PROCESSED_SAMPLES] + 1
        }),
        ("held frames reach the warm-up", &[warming], |m| {
            m.numbers[number::HELD] = 30;
            m.numbers[number::CARRY_START] = 2_400;
            m.numbers[number::PROCESSED_SAMPLES] = 2_420;
        }),
        ("held times hop", &[warming], |m| {
            m.numbers[number::HELD] = 1
        }),
        ("a held energy", &[warming], |m| {
            m.floats[float::WARMUP + 1] = -1e-45
        }),
        ("a held energy", &[warming], |m| {
            m.floats[float::WARMUP] = 131_073.0
        }),
        ("a held energy", &[warming], |m| {
            m.floats[float::WARMUP] = f32::NAN
        }),
        ("a segment is open while warming", &[warming], |m| {
            m.numbers[number::IS_OPEN] = 1;
            m.numbers[number::LOUD_FRAMES] = 1;
        }),
        ("start below the last segment end", &[open], |m| {
            m.numbers[number::LAST_SEGMENT_END] = m.numbers[number::START_SAMPLE] + 1
        }),
        ("start above received", &[open], |m| {
            m.numbers[number::START_SAMPLE] = m.numbers[number::PROCESSED_SAMPLES] + 1
        }),
        ("last loud end", &[open], |m| {
            m.numbers[number::LAST_END_SAMPLE] = m.numbers[number::PROCESSED_SAMPLES] + 1
        }),
        ("loud count 0", &[open], |m| {
            m.numbers[number::LOUD_FRAMES] = 0;
            m.numbers[number::SCORE_TOTAL] = 0;
        }),
        ("loud count above received", &[open], |m| {
            m.numbers[number::LOUD_FRAMES] = m.numbers[number::PROCESSED_SAMPLES] + 1
        }),
        ("score", &[open], |m| {
            m.numbers[number::SCORE_TOTAL] = 1_024 * m.numbers[number::LOUD_FRAMES] + 1
        }),
        ("energy total", &[open], |m| {
            m.floats[float::ENERGY_SUM] = -1e-45
        }),
        ("energy total", &[open], |m| {
            m.floats[float::ENERGY_SUM] = 2f32.powi(60) * 1.000_000_1
        }),
        ("energy total", &[open], |m| {
            m.floats[float::ENERGY_SUM] = f32::NAN
        }),
        ("silence run", &[open], |m| {
            m.numbers[number::SILENCE_RUN] = 6
        }),
    ];
    let (mut random, mut seen) = (Random::new(5), Seen::default());
    for (name, states, damage) in cases {
        for state in *states {
            let mut memory = state();
            assert!(judge::sound(&memory));
            damage(&mut memory);
            assert!(!judge::sound(&memory), "the judge on '{name}'");
            let mut kept = memory.clone();
            ask(&mut memory, &mut kept, &mut random, &mut seen);
        }
    }
    assert_eq!(
        (seen[Met::Malformed], seen[Met::Sound]),
        (seen[Met::States], 0)
    );
    seen.say("states, each with one clause broken");
}

/// What 01's list calls sound at its edges.
#[test]
fn the_edges_are_sound() {
    let cases: &[(&str, Start, Damage)] = &[
        ("start equal to received", open, |m| {
            m.numbers[number::START_SAMPLE] = m.numbers[number::PROCESSED_SAMPLES]
        }),
        ("start equal to the last segment end", open, |m| {
            m.numbers[number::LAST_SEGMENT_END] = m.numbers[number::START_SAMPLE]
        }),
        ("last loud end equal to received", open, |m| {
            m.numbers[number::LAST_END_SAMPLE] = m.numbers[number::PROCESSED_SAMPLES]
        }),
        ("silence run equal to hangover", open, |m| {
            m.numbers[number::SILENCE_RUN] = 5
        }),
        ("the greatest score", open, |m| {
            m.numbers[number::SCORE_TOTAL] = 1_024 * m.numbers[number::LOUD_FRAMES]
        }),
        ("the greatest energy total", open, |m| {
            m.floats[float::ENERGY_SUM] = 2f32.powi(60)
        }),
        ("last segment end equal to received", closed, |m| {
            m.numbers[number::LAST_SEGMENT_END] = m.numbers[number::PROCESSED_SAMPLES]
        }),
        ("talk equal to the last segment end", closed, |m| {
            m.numbers[number::TALK_SAMPLES] = m.numbers[number::LAST_SEGMENT_END]
        }),
        ("the greatest last sample", closed, |m| {
            m.floats[float::PRE_EMPHASIS_PREV] = -65_536.0
        }),
        ("one loud frame", open, |m| {
            m.numbers[number::LOUD_FRAMES] = 1;
            m.numbers[number::SCORE_TOTAL] = 0;
        }),
        ("as many loud frames as samples", open, |m| {
            m.numbers[number::LOUD_FRAMES] = m.numbers[number::PROCESSED_SAMPLES]
        }),
        ("the least held energy", warming, |m| {
            m.floats[float::WARMUP] = 0.0
        }),
        ("the greatest held energy", warming, |m| {
            m.floats[float::WARMUP + 1] = 131_072.0
        }),
        ("one frame fewer than the warm-up", warming, |m| {
            m.numbers[number::HELD] = 29;
            m.numbers[number::CARRY_START] = 2_320;
            m.numbers[number::PROCESSED_SAMPLES] = 2_340;
        }),
        ("a carry of a frame less one", closed, |m| {
            m.numbers[number::CARRY_LEN] = 79;
            m.numbers[number::CARRY_START] = m.numbers[number::PROCESSED_SAMPLES] - 79;
        }),
        ("the ends of the settings", closed, |m| {
            m.floats[float::PRE_EMPHASIS] = 0.0;
            m.floats[float::RELEASE_RATIO] = 1.0;
            m.floats[float::ACTIVATION_RATIO] = 1.0;
            m.floats[float::MIN_SPEECH_ENERGY] = 0.0;
            m.floats[float::NOISE_SMOOTHING] = 0.0;
            m.numbers[number::HANGOVER_FRAMES] = 10_000;
            m.numbers[number::MIN_SPEECH_FRAMES] = 10_000;
            m.numbers[number::STREAM_START_TIME] = (1 << 63) - 1;
            m.floats[float::SPEECH_FLOOR_RISE] = 0.5;
            m.floats[float::WINDOW + 40] = 1.0;
        }),
        ("rows equal to received", closed, |m| {
            m.numbers[number::ROWS_REPORTED] = m.numbers[number::PROCESSED_SAMPLES]
        }),
        ("the floor equal to energy_floor", closed, |m| {
            m.floats[float::NOISE_FLOOR] = 1e-4
        }),
        ("the greatest carried value", closed, |m| {
            m.floats[float::CARRY] = -131_072.0
        }),
        ("2^40 received", closed, |m| {
            m.numbers[number::CARRY_START] = (1 << 40) - m.numbers[number::CARRY_LEN];
            m.numbers[number::PROCESSED_SAMPLES] = 1 << 40;
        }),
        ("past the window", closed, |m| {
            m.floats[float::WINDOW + 80] = f32::NAN
        }),
        ("past the carry", closed, |m| {
            m.floats[float::CARRY + 2047] = f32::NAN
        }),
        ("held energies after the warm-up", closed, |m| {
            m.floats[float::WARMUP] = f32::NAN
        }),
        ("a pre-emphasis that is absent", warming, |m| {
            m.numbers[number::HAS_PRE_EMPHASIS] = 0;
            m.floats[float::PRE_EMPHASIS] = f32::NAN;
        }),
        ("a segment that is not open", closed, |m| {
            m.numbers[number::SILENCE_RUN] = u64::MAX
        }),
        ("what the latest call counted", closed, |m| {
            m.numbers[number::FRAMES] = u64::MAX
        }),
    ];
    let (mut random, mut seen) = (Random::new(6), Seen::default());
    for (name, state, change) in cases {
        let mut memory = state();
        change(&mut memory);
        assert!(judge::sound(&memory), "the judge on '{name}'");
        let mut kept = memory.clone();
        ask(&mut memory, &mut kept, &mut random, &mut seen);
    }
    assert_eq!(
        (seen[Met::Malformed], seen[Met::Sound]),
        (0, seen[Met::States])
    );
}

/// 17, which no run of this length reaches: 'samples received would pass 2^40'.
#[test]
fn the_stream_s_end() {
    let mut memory = closed();
    memory.numbers[number::CARRY_START] = (1 << 40) - memory.numbers[number::CARRY_LEN] - 10;
    memory.numbers[number::PROCESSED_SAMPLES] = (1 << 40) - 10;
    let before = memory.clone();
    assert_eq!(memory.detect(&[0.0; 11], &mut []), 17);
    assert!(memory.same(&before));
    assert_eq!(memory.detect(&[0.0; 10], &mut []), 0);
    assert_eq!(memory.received(), 1 << 40);
    assert_eq!(memory.detect(&[], &mut []), 0);
    // 16 comes before 17, and 15 before both.
    let before = memory.clone();
    let mut rows = [77; 2 * ROW_FIELDS];
    assert_eq!(memory.detect(&[0.0], &mut rows), 17);
    assert_eq!(memory.detect(&[f32::NAN], &mut rows), 16);
    assert_eq!(memory.detect(&[f32::NAN; 1_025], &mut rows), 15);
    assert!(memory.same(&before) && rows == [77; 2 * ROW_FIELDS]);
}

/// Memory that is too short, by one place or by many; and longer memory, whose rest stays.
#[test]
fn any_length_of_memory() {
    let state = closed();
    let config = plain();
    let (window, rise) = (
        config.window().expect("accepted"),
        config.speech_floor_rise().expect("accepted"),
    );
    let short = (0..NUMBERS).map(|numbers| (numbers, FLOATS)).chain(
        (0..FLOATS)
            .rev()
            .step_by(101)
            .map(|floats| (NUMBERS, floats)),
    );
    for (numbers, floats) in short {
        let mut memory = state.clone();
        memory.numbers.truncate(numbers);
        memory.floats.truncate(floats);
        let before = memory.clone();
        for reading in READINGS {
            assert_eq!(reading(&memory.numbers, &memory.floats), 19);
        }
        assert_eq!(memory.detect(&[0.0], &mut []), 19);
        assert_eq!(memory.flush(&mut []), 19);
        assert_eq!(memory.reset(0), 19);
        assert_eq!(memory.open(&config, &window, rise), 19);
        assert!(memory.same(&before));
    }
    let mut memory = Memory::old();
    memory.numbers.extend([1, 2, 3]);
    memory.floats.extend([4.0, 5.0]);
    assert_eq!(memory.open(&config, &window, rise), 0);
    assert_eq!(memory.detect(&[0.5; 100], &mut []), 0);
    assert_eq!(memory.flush(&mut [0; 2 * ROW_FIELDS]), 0);
    assert_eq!(memory.reset(3), 0);
    assert_eq!(
        (&memory.numbers[NUMBERS..], &memory.floats[FLOATS..]),
        (&[1, 2, 3][..], &[4.0, 5.0][..])
    );
}

/// Holds that the state is refused by 19 wherever one is taken, and that nothing is written.
fn assert_refused(mut memory: Memory) {
    let (mut random, mut seen) = (Random::new(7), Seen::default());
    let mut kept = memory.clone();
    ask(&mut memory, &mut kept, &mut random, &mut seen);
    assert_eq!(seen[Met::Malformed], 1);
    let state = DetectorState::from_bytes(&memory.stored()).expect("as many bytes");
    assert_eq!(Detector::from_state(&state).unwrap_err().number(), 19);
}

/// A state that is sound but for the layout's name. Before there was one, the rate stood first.
#[test]
fn a_state_of_another_layout() {
    for state in [warming, open, closed] {
        let rate = state().numbers[number::SAMPLE_RATE];
        for name in [0, LAYOUT - 1, LAYOUT + 1, rate] {
            let mut memory = state();
            assert!(judge::sound(&memory));
            memory.numbers[number::LAYOUT] = name;
            assert_refused(memory);
        }
    }
}

#[test]
fn zeros_are_no_state() {
    assert_refused(Memory::zeros());
}

/// A refused opening leaves the layout's name and zeros behind it, which every later call refuses.
#[test]
fn a_refused_opening() {
    let mut memory = Memory::old();
    assert_eq!(memory.open(&plain(), &[1.0; 79], 0.9), 14);
    let mut left = Memory::zeros();
    left.numbers[number::LAYOUT] = LAYOUT;
    assert!(memory.same(&left));
    assert_refused(memory);
}

/// A state of another layout is refused before its clauses are: most malformed states have the right name.
fn assert_looked_at(seen: &Seen) {
    seen.assert_met(&[Met::Malformed, Met::Sound, Met::Accepted]);
    assert!(10 * seen[Met::Unnamed] < seen[Met::Malformed], "{seen}");
}

#[test]
fn bits_flipped_and_random_words() {
    let (mut flipped, mut random) = (Seen::default(), Seen::default());
    for seed in 0..40 {
        flips(seed, 200, &mut flipped);
        words(seed, 60, &mut random);
    }
    assert_looked_at(&flipped);
    assert_looked_at(&random);
    flipped.say("states, a bit flipped in each");
    random.say("states, of random words");
}

#[test]
#[ignore = "a long run"]
fn long_bits_flipped_and_random_words() {
    let (flipped, time): (Seen, _) = long("bits flipped", 2_000, |seen, block| {
        flips(1_000 + block, 4_000, seen)
    });
    flipped.say_after("states, a bit flipped in each", time);
    let (random, time): (Seen, _) = long("random words", 2_000, |seen, block| {
        words(1_000 + block, 1_500, seen)
    });
    random.say_after("states, of random words", time);
    assert_looked_at(&flipped);
    assert_looked_at(&random);
    assert!(flipped[Met::States] + random[Met::States] >= 10_000_000);
}
