//! Settings, sound and cuttings at random.

use std::f32::consts::TAU;
use std::sync::LazyLock;

use fallowcart::{HighpassOrder, PreprocessingConfig};

use crate::common::random::Random;
use crate::common::{FULL, LONGEST};

pub const COMMON_RATES: [u32; 8] = [
    8_000, 11_025, 16_000, 22_050, 24_000, 32_000, 44_100, 48_000,
];

/// The float this many places below.
pub fn below(x: f32, places: u32) -> f32 {
    f32::from_bits(x.to_bits() - places)
}

/// 2^n, the subnormal ones too.
pub fn power(n: i32) -> f32 {
    2f64.powi(n) as f32
}

impl Random {
    /// From -1 to below 1.
    pub fn uniform(&mut self) -> f32 {
        (self.word() >> 40) as f32 / 8_388_608.0 - 1.0
    }

    /// A normal or subnormal number of either sign, from 2^low to below 2^(high + 1).
    pub fn float(&mut self, low: i32, high: i32) -> f32 {
        let digits = 1.0 + (self.word() >> 41) as f32 / 8_388_608.0;
        let size = digits * power(self.within(low, high));
        if self.one_in(2) { size } else { -size }
    }

    fn alpha(&mut self) -> f32 {
        match self.within(0, 7) {
            0 => 0.95,
            1 => 0.4,
            2 => f32::from_bits(self.within(1, 8) as u32),
            3 => below(1.0, self.within(1, 8) as u32),
            4 => power(self.within(-148, -1)),
            _ => ((self.word() >> 41) as f32 + 0.5) / 8_388_608.0,
        }
    }

    fn cutoff(&mut self, rate: u32) -> f32 {
        let half = rate as f32 / 2.0;
        match self.within(0, 11) {
            0 => 20.0,
            1 => f32::from_bits(20f32.to_bits() + self.within(1, 8) as u32),
            2 => below(half, self.pick(&[1, 1, 1, 2, 3, 4])),
            3 => below(half, self.within(1, 4_096) as u32),
            _ => {
                let share = self.uniform().abs();
                (20.0 * (half / 20.0).powf(share)).clamp(20.0, below(half, 1))
            }
        }
    }

    /// Settings that 20 to 23 accept.
    pub fn filter_config(&mut self) -> PreprocessingConfig {
        let rate = match self.within(0, 2) {
            0 => self.within(8_000, 48_000) as u32,
            _ => self.pick(&COMMON_RATES),
        };
        let (dc_removal, highpass) = self.pick(&[
            (true, true),
            (true, true),
            (false, true),
            (true, false),
            (false, false),
        ]);
        PreprocessingConfig {
            highpass_cutoff_hz: self.cutoff(rate),
            sample_rate_hz: rate,
            dc_bias_alpha: self.alpha(),
            enable_dc_removal: dc_removal,
            enable_highpass: highpass,
            highpass_order: self.pick(&[HighpassOrder::SecondOrder, HighpassOrder::FourthOrder]),
        }
    }

    /// None, silent or speech.
    pub fn label(&mut self) -> Option<bool> {
        self.pick(&[None, Some(true), Some(false)])
    }

    /// A value that no sample may have.
    pub fn filter_bad_sample(&mut self) -> f32 {
        let beyond = f32::from_bits(FULL.to_bits() + 1);
        match self.within(0, 5) {
            0 => f32::NAN,
            1 => self.pick(&[f32::INFINITY, f32::NEG_INFINITY]),
            2 => self.pick(&[beyond, -beyond]),
            3 => f32::from_bits(0x7f80_0001 | self.word() as u32),
            _ => self.float(17, 126),
        }
    }
}

/// Kinds of sound.
#[derive(Clone, Copy, Debug, PartialEq, Eq)]
pub enum Sound {
    Silence,
    MinusZero,
    Constant,
    Speech,
    Square,
    Noise,
    Subnormal,
    Impulse,
    /// Noise, then silence: what the filter remembers fades.
    Tail,
    Mixture,
}

/// A second of a voice: five sines that swell and fade, and noise.
static VOICE: LazyLock<Vec<f32>> = LazyLock::new(|| {
    let mut random = Random::new(7);
    (0..16_000)
        .map(|n| {
            let t = n as f32 / 16_000.0;
            let voice: f32 = [140.0, 280.0, 700.0, 1_220.0, 2_600.0]
                .iter()
                .map(|hz| (TAU * hz * t).sin())
                .sum();
            let swell = 0.5 - 0.5 * (TAU * 4.0 * t).cos();
            0.15 * swell * voice + 0.002 * random.uniform()
        })
        .collect()
});

impl Sound {
    pub const ALL: [Sound; 10] = [
        Sound::Silence,
        Sound::MinusZero,
        Sound::Constant,
        Sound::Speech,
        Sound::Square,
        Sound::Noise,
        Sound::Subnormal,
        Sound::Impulse,
        Sound::Tail,
        Sound::Mixture,
    ];

    pub fn samples(self, random: &mut Random, len: usize) -> Vec<f32> {
        match self {
            Sound::Silence => vec![0.0; len],
            Sound::MinusZero => vec![-0.0; len],
            Sound::Constant => vec![random.float(-149, 15); len],
            Sound::Speech => {
                let (gain, bias) = (random.float(-20, 14), random.uniform() / 8.0);
                let start = random.word() as usize % VOICE.len();
                let voice = VOICE.iter().cycle().skip(start).take(len);
                voice.map(|sample| gain * (sample + bias)).collect()
            }
            Sound::Square => {
                let half = random.within(1, 200) as usize;
                let side = |n: usize| {
                    if (n / half).is_multiple_of(2) {
                        FULL
                    } else {
                        -FULL
                    }
                };
                (0..len).map(side).collect()
            }
            Sound::Noise => (0..len)
                .map(|_| match random.within(0, 15) {
                    0 => random.pick(&[FULL, -FULL]),
                    _ => FULL * random.uniform(),
                })
                .collect(),
            Sound::Subnormal => {
                // Few digits make signed zeros and the smallest numbers common.
                let digits = random.pick(&[1, 2, 8, 23]);
                let one = |word| (word as u32 & 1 << 31) | (word as u32 & ((1 << digits) - 1));
                (0..len)
                    .map(|_| f32::from_bits(one(random.word())))
                    .collect()
            }
            Sound::Impulse => {
                let mut samples = vec![random.pick(&[0.0, -0.0]); len];
                let place = random.word() as usize % len;
                samples[place] = random.float(-140, 15);
                samples
            }
            Sound::Tail => {
                let mut samples = Sound::Noise.samples(random, len);
                let end = len.min(random.within(1, 400) as usize);
                let gain = power(random.within(-140, 0));
                samples[..end].iter_mut().for_each(|sample| *sample *= gain);
                samples[end..].fill(random.pick(&[0.0, -0.0]));
                samples
            }
            Sound::Mixture => {
                let mut samples = Vec::new();
                while samples.len() < len {
                    let kind = random.pick(&Sound::ALL[..9]);
                    let part = random.within(1, 1_500) as usize;
                    samples.extend(kind.samples(random, part));
                }
                samples.truncate(len);
                samples
            }
        }
    }
}

/// Lengths of blocks.
#[derive(Clone, Copy, Debug)]
pub enum Cutting {
    Always(usize),
    UpTo(i32),
}

impl Cutting {
    pub fn any(random: &mut Random) -> Cutting {
        let usual = Cutting::Always(160);
        random.pick(&[
            usual,
            usual,
            Cutting::Always(1),
            Cutting::Always(LONGEST),
            Cutting::UpTo(3),
            Cutting::UpTo(LONGEST as i32),
            Cutting::UpTo(LONGEST as i32),
        ])
    }

    /// How long the sound is. Short blocks get less, so that they do not take all the calls.
    pub fn sound(self, random: &mut Random) -> usize {
        let blocks_are_short = matches!(self, Cutting::Always(1) | Cutting::UpTo(3));
        random.within(200, if blocks_are_short { 600 } else { 6_000 }) as usize
    }

    pub fn next(self, random: &mut Random) -> usize {
        match self {
            Cutting::Always(len) => len,
            Cutting::UpTo(longest) => random.within(0, longest) as usize,
        }
    }
}
