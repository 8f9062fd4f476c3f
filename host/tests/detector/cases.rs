//! Settings, sound and cuttings at random.

use std::time::Duration;

use fallowcart::VadConfig;

use crate::common::random::Random;
use crate::common::{FULL, LONGEST};

/// The float before.
fn before(x: f32) -> f32 {
    f32::from_bits(x.to_bits() - 1)
}

impl Random {
    /// A power of two, times something from 1 to below 2.
    fn magnitude(&mut self, low: i32, high: i32) -> f32 {
        ((1.0 + f64::from(self.share())) * 2f64.powi(self.within(low, high))) as f32
    }

    fn detector_rate(&mut self) -> u32 {
        match self.within(0, 3) {
            0 => self.within(8_000, 48_000) as u32,
            1 => self.pick(&[8_000, 48_000]),
            _ => self.pick(&[8_000, 11_025, 16_000, 22_050, 44_100]),
        }
    }

    /// Frame and hop in samples: the hop at least what a warm-up of 300 frames asks for.
    fn lengths(&mut self, rate: u32) -> (u32, u32) {
        let least = rate.div_ceil(1_000);
        let frame = match self.within(0, 5) {
            0 => least,
            1 => 2_048,
            2 => self.within(2_000, 2_048) as u32,
            3 => self.within(least as i32, 160.max(least as i32)) as u32,
            _ => self.within(least as i32, 1_000) as u32,
        };
        let hop = match self.within(0, 4) {
            0 => frame,
            1 => least,
            2 => frame.div_ceil(2).max(least),
            _ => self.within(least as i32, frame as i32) as u32,
        };
        (frame, hop)
    }

    /// Settings that the library accepts, at the limits of each or inside them.
    pub fn detector_config(&mut self) -> VadConfig {
        loop {
            let rate = self.detector_rate();
            let (frame, hop) = self.lengths(rate);
            let nanos = u64::from(frame) * 1_000_000_000 / u64::from(rate) + self.word() % 3;
            let release_ratio = match self.within(0, 7) {
                0 => 1.0,
                1 => self.magnitude(0, 20),
                2 => 2.0,
                _ => 1.0 + self.share() * 4.0,
            };
            let activation_ratio = match self.within(0, 7) {
                0 => release_ratio,
                1 => 4.0f32.max(release_ratio),
                _ => release_ratio * (1.0 + self.share() * 4.0),
            };
            let speech_padding = match self.within(0, 5) {
                0 => Duration::ZERO,
                1 => Duration::from_secs(1),
                2 => Duration::from_nanos(self.word() % 1_000_000_001),
                _ => Duration::from_millis(self.word() % 120),
            };
            let config = VadConfig {
                sample_rate: rate,
                frame_duration: Duration::from_nanos(nanos),
                frame_overlap: match self.within(0, 3) {
                    0 => self.share(),
                    _ => 1.0 - hop as f32 / frame as f32,
                },
                pre_emphasis: match self.within(0, 4) {
                    0 => None,
                    1 => Some(self.pick(&[0.0, before(1.0), 0.97])),
                    _ => Some(self.share()),
                },
                activation_ratio,
                release_ratio,
                min_speech_energy: match self.within(0, 5) {
                    0 => 0.0,
                    1 => self.magnitude(-20, 20),
                    2 => self.pick(&[f32::MAX, f32::MIN_POSITIVE, 1e-45]),
                    _ => self.magnitude(-20, -4),
                },
                noise_smoothing: match self.within(0, 4) {
                    0 => self.pick(&[0.0, before(1.0), 0.85]),
                    _ => self.share(),
                },
                energy_floor: match self.within(0, 7) {
                    0 => self.pick(&[1e-45, f32::MIN_POSITIVE, f32::MAX, 262_144.0, 1e30]),
                    1 => self.magnitude(-140, 20),
                    _ => self.magnitude(-20, -4),
                },
                hangover_frames: match self.within(0, 7) {
                    0 => self.pick(&[10_000, 9_999]),
                    1 => 0,
                    2 => self.within(0, 200) as usize,
                    _ => self.within(0, 25) as usize,
                },
                speech_padding,
                min_speech_frames: match self.within(0, 11) {
                    0 => self.pick(&[10_000, 9_999, 300]),
                    _ => self.within(1, 6) as usize,
                },
                stream_start_time: self.detector_start(),
            };
            // Half of the settings find speech in most sounds.
            let config = if self.one_in(2) {
                VadConfig {
                    release_ratio: 1.0 + self.share() * 2.0,
                    activation_ratio: 3.0 + self.share(),
                    min_speech_energy: 0.0,
                    energy_floor: self.magnitude(-40, -20),
                    hangover_frames: self.within(0, 8) as usize,
                    min_speech_frames: self.within(1, 3) as usize,
                    ..config
                }
            } else {
                config
            };
            if config.validate().is_ok() {
                return config;
            }
        }
    }

    pub fn detector_start(&mut self) -> u64 {
        match self.within(0, 3) {
            0 => 0,
            1 => (1 << 63) - 1,
            _ => self.word() >> self.within(1, 40),
        }
    }

    /// A value that no sample may have.
    pub fn detector_bad_sample(&mut self) -> f32 {
        let beyond = f32::from_bits(FULL.to_bits() + 1);
        match self.within(0, 3) {
            0 => f32::NAN,
            1 => self.pick(&[f32::INFINITY, f32::NEG_INFINITY]),
            2 => self.pick(&[beyond, -beyond]),
            _ => f32::from_bits(0x7f80_0001 | self.word() as u32),
        }
    }
}

/// Waves that a stretch of sound is made of.
#[derive(Clone, Copy)]
enum Wave {
    Zero,
    MinusZero,
    Constant,
    Alternating,
    Noise,
    Sine(f32),
}

impl Wave {
    fn any(random: &mut Random) -> Wave {
        match random.within(0, 49) {
            0 => Wave::Zero,
            1 => Wave::MinusZero,
            2..=9 => Wave::Constant,
            10..=19 => Wave::Alternating,
            20..=34 => Wave::Noise,
            _ => Wave::Sine(random.share()),
        }
    }
}

/// Sound that goes on: a background, and louder stretches whose level is near the ratios that the detector asks for, or anywhere.
pub struct Sound {
    random: Random,
    background: f32,
    ratios: [f32; 2],
    /// Samples of a frame.
    frame: i32,
    usual: Wave,
    wave: Wave,
    level: f32,
    left: u32,
    at: u32,
    /// Samples are whole numbers of 1 / 32,768, as a recorder has them: many pre-emphasized values then lie halfway between two floats.
    sixteen_bit: bool,
}

impl Sound {
    pub fn new(mut random: Random, config: &VadConfig) -> Sound {
        let background = match random.within(0, 7) {
            0 => config.energy_floor.clamp(1e-30, 4_096.0),
            1 => random.magnitude(-149, 15),
            _ => random.magnitude(-16, 4),
        };
        let ratios = [config.activation_ratio, config.release_ratio];
        let frame = config.frame_length_samples().expect("accepted") as i32;
        let usual = Wave::any(&mut random);
        let sixteen_bit = random.one_in(3);
        Sound {
            random,
            background,
            ratios,
            frame,
            usual,
            wave: Wave::Zero,
            level: 0.0,
            left: 0,
            at: 0,
            sixteen_bit,
        }
    }

    fn turn(&mut self) {
        let random = &mut self.random;
        self.left = match random.within(0, 49) {
            0..=4 => random.within(1, 40),
            5 => random.within(2_000, 20_000),
            _ => random.within(1, 12) * self.frame / 2,
        }
        .max(1) as u32;
        // Most of a run's sound has one wave, so that its levels can be compared.
        self.wave = if random.one_in(5) {
            Wave::any(random)
        } else {
            self.usual
        };
        // What is far too loud or too quiet moves the floor for long, so it is rare.
        let level = match random.within(0, 49) {
            0 => FULL,
            1 => random.magnitude(-149, 15),
            2..=9 => self.background * random.pick(&self.ratios),
            10..=14 => self.background * random.pick(&self.ratios) * (0.5 + random.share()),
            15..=29 => self.background * self.ratios[0] * (1.0 + 60.0 * random.share()),
            _ => self.background,
        };
        self.level = level.min(FULL);
        if random.one_in(3) {
            self.level = -self.level;
        }
    }

    pub fn next_sample(&mut self) -> f32 {
        if self.left == 0 {
            self.turn();
        }
        self.left -= 1;
        self.at = self.at.wrapping_add(1);
        let sample = match self.wave {
            Wave::Zero => 0.0,
            Wave::MinusZero => -0.0,
            Wave::Constant => self.level,
            Wave::Alternating if self.at.is_multiple_of(2) => self.level,
            Wave::Alternating => -self.level,
            Wave::Noise => self.level * (2.0 * self.random.share() - 1.0),
            Wave::Sine(pitch) => self.level * (self.at as f32 * pitch).sin(),
        };
        if self.sixteen_bit {
            f32::from((sample * 32_768.0).round() as i16) / 32_768.0
        } else {
            sample
        }
    }
}

/// How a stream is cut into blocks.
#[derive(Clone, Copy)]
pub enum Cutting {
    Same(usize),
    Any(usize),
}

impl Cutting {
    pub fn new(random: &mut Random) -> Cutting {
        match random.within(0, 9) {
            0 => Cutting::Same(1),
            1 => Cutting::Same(160),
            2..=4 => Cutting::Same(LONGEST),
            5 => Cutting::Any(20),
            6 => Cutting::Same(random.within(1, LONGEST as i32) as usize),
            _ => Cutting::Any(LONGEST),
        }
    }

    pub fn next_length(self, random: &mut Random) -> usize {
        match self {
            Cutting::Same(length) => length,
            Cutting::Any(longest) => random.within(0, longest as i32) as usize,
        }
    }
}
