//! What a sample costs: the port's filter beside the original's.
//!
//! Both sides get the same blocks, and keep their memory from block to block. The port's figure holds the door's call and the checks of its state and of
//! the block; the original's holds the vector that it makes for each block. Rounds alternate between the two sides, and the median round counts.

#[path = "../tests/common/for_original.rs"]
mod for_original;
#[path = "../tests/common/random.rs"]
mod random;

use std::f32::consts::TAU;
use std::hint::black_box;
use std::time::{Duration, Instant};

use fallowcart::{Filter, HighpassOrder, PreprocessingConfig};
use for_original::ForOriginal;
use random::Random;
use speech_prep::preprocessing as original;

const SAMPLES: usize = 1 << 15;
const ROUNDS: usize = 101;
const RATE: f32 = 16_000.0;
const CALLS: usize = 2_000;

/// Nanoseconds of a sample in one round.
fn round(sound: &[f32], block: usize, mut process: impl FnMut(&[f32])) -> f64 {
    let start = Instant::now();
    for samples in sound.chunks(block) {
        process(black_box(samples));
    }
    start.elapsed().as_secs_f64() * 1e9 / sound.len() as f64
}

fn median(mut rounds: Vec<f64>) -> f64 {
    rounds.sort_by(f64::total_cmp);
    rounds[rounds.len() / 2]
}

fn compare(name: &str, config: PreprocessingConfig, sound: &[f32], block: usize) {
    let mut port = Filter::new(config).expect("the settings are accepted");
    let mut output = vec![0.0; block];
    let mut judge =
        original::DcHighPassFilter::new(config.for_original()).expect("the settings are accepted");

    let (mut ports, mut originals) = (Vec::new(), Vec::new());
    // The first round only warms up.
    for n in 0..=ROUNDS {
        let p = round(sound, block, |samples| {
            port.process(samples, None, &mut output).expect("accepted");
            black_box(&output);
        });
        let o = round(sound, block, |samples| {
            black_box(judge.process(samples, None).expect("accepted"));
        });
        if n > 0 {
            ports.push(p);
            originals.push(o);
        }
    }
    assert_eq!(port.dc_bias().to_bits(), judge.dc_bias().to_bits());
    line(name, block, median(ports), median(originals));
}

fn line(name: &str, block: usize, port: f64, original: f64) {
    println!(
        "{name:<32} {block:>6} {port:>8.1} {original:>8.1} {:>8.1}",
        port / original
    );
}

fn head(what: &str) {
    println!(
        "{what:<32} {:>6} {:>8} {:>8} {:>8}",
        "block", "port", "original", "ratio"
    );
}

/// Nanoseconds of a call with no sample.
fn calls(name: &str, config: PreprocessingConfig) {
    let mut port = Filter::new(config).expect("the settings are accepted");
    let mut judge =
        original::DcHighPassFilter::new(config.for_original()).expect("the settings are accepted");
    let each = |time: Duration| time.as_secs_f64() * 1e9 / CALLS as f64;
    let (mut ports, mut originals) = (Vec::new(), Vec::new());
    for _ in 0..ROUNDS {
        let start = Instant::now();
        for _ in 0..CALLS {
            port.process(black_box(&[]), None, &mut [])
                .expect("accepted");
        }
        ports.push(each(start.elapsed()));
        let start = Instant::now();
        for _ in 0..CALLS {
            black_box(judge.process(black_box(&[]), None).expect("accepted"));
        }
        originals.push(each(start.elapsed()));
    }
    line(name, 0, median(ports), median(originals));
}

/// Nanoseconds of a sample, from the stream's start up to so many minutes.
fn growth(minutes: &[usize], config: PreprocessingConfig, sound: &[f32]) {
    let mut port = Filter::new(config).expect("the settings are accepted");
    let mut output = vec![0.0; 1_024];
    let mut judge =
        original::DcHighPassFilter::new(config.for_original()).expect("the settings are accepted");
    let (mut ports, mut originals, mut rounds) = (0.0, 0.0, 0.0);
    for &limit in minutes {
        while (rounds as usize) < limit * 60 * RATE as usize / SAMPLES {
            ports += round(sound, 1_024, |samples| {
                port.process(samples, None, &mut output).expect("accepted");
                black_box(&output);
            });
            originals += round(sound, 1_024, |samples| {
                black_box(judge.process(samples, None).expect("accepted"));
            });
            rounds += 1.0;
        }
        let name = format!("{limit} minutes of speech");
        line(&name, 1_024, ports / rounds, originals / rounds);
    }
}

/// Five sines, as of a vowel, that swell and fade four times a second, over a bias and noise.
fn speech() -> Vec<f32> {
    let mut random = Random::new(0);
    (0..SAMPLES)
        .map(|n| {
            let t = n as f32 / RATE;
            let voice: f32 = [140.0, 280.0, 700.0, 1220.0, 2600.0]
                .iter()
                .map(|hz| (TAU * hz * t).sin())
                .sum();
            let swell = 0.5 - 0.5 * (TAU * 4.0 * t).cos();
            let noise = f32::from(random.word() as i16) / 32_768.0;
            0.01 + 0.1 * swell * voice + 0.001 * noise
        })
        .collect()
}

fn main() {
    let speech = speech();
    let mut random = Random::new(1);
    let subnormals: Vec<f32> = (0..SAMPLES)
        .map(|_| f32::from_bits(random.word() as u32 & 0x807f_ffff))
        .collect();
    let fourth = PreprocessingConfig::default();
    let second = PreprocessingConfig {
        highpass_order: HighpassOrder::SecondOrder,
        ..fourth
    };
    let removal = PreprocessingConfig {
        enable_highpass: false,
        ..fourth
    };

    println!("ns a sample; the median of {ROUNDS} rounds of {SAMPLES} samples");
    head("");
    for block in [160, 1_024] {
        compare("fourth order, speech", fourth, &speech, block);
        compare("second order, speech", second, &speech, block);
        compare("removal only, speech", removal, &speech, block);
        compare("fourth order, silence", fourth, &[0.0; SAMPLES], block);
        compare("fourth order, subnormals", fourth, &subnormals, block);
    }
    println!();
    head("ns a call without samples");
    calls("fourth order", fourth);
    println!();
    head("ns a sample, as the stream grows");
    growth(&[1, 10, 60, 600], fourth, &speech);
}
