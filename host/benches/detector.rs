//! What a sample and a call cost: the port's detector beside the original's.
//!
//! Both sides get the same blocks and keep their state from block to block. The port's figure holds the door's call and the checks of its state and of the
//! block; the original's holds the lock and the vectors that it makes for each block. Rounds alternate between the two sides, and the median round counts.

#[path = "../tests/common/breakfast.rs"]
mod breakfast;
#[path = "../tests/common/for_original.rs"]
mod for_original;

use std::hint::black_box;
use std::time::{Duration, Instant};

use breakfast::breakfast;
use fallowcart::{Detector, VadConfig};
use for_original::ForOriginal;
use speech_prep::VadDetector;

const ROUNDS: usize = 41;
const CALLS: usize = 2_000;

struct Sides {
    port: Detector,
    original: VadDetector,
}

impl Sides {
    fn open(config: VadConfig) -> Sides {
        Sides {
            port: Detector::new(config).expect("accepted"),
            original: VadDetector::new(config.for_original()).expect("accepted"),
        }
    }

    fn port(&mut self, sound: &[f32], block: usize) -> Duration {
        let start = Instant::now();
        for samples in sound.chunks(block) {
            black_box(self.port.detect(black_box(samples)).expect("accepted"));
        }
        start.elapsed()
    }

    fn original(&mut self, sound: &[f32], block: usize) -> Duration {
        let start = Instant::now();
        for samples in sound.chunks(block) {
            black_box(self.original.detect(black_box(samples)).expect("accepted"));
        }
        start.elapsed()
    }
}

fn median(mut rounds: Vec<f64>) -> f64 {
    rounds.sort_by(f64::total_cmp);
    rounds[rounds.len() / 2]
}

fn line(name: &str, block: usize, ports: Vec<f64>, originals: Vec<f64>) {
    let (port, original) = (median(ports), median(originals));
    println!(
        "{name:<36} {block:>6} {port:>9.1} {original:>9.1} {:>7.2}",
        port / original
    );
}

/// Nanoseconds of a sample.
fn samples(name: &str, config: VadConfig, sound: &[f32], block: usize) {
    let mut sides = Sides::open(config);
    let (mut ports, mut originals) = (Vec::new(), Vec::new());
    // The first round only warms up.
    for n in 0..=ROUNDS {
        let each = |time: Duration| time.as_secs_f64() * 1e9 / sound.len() as f64;
        let port = each(sides.port(sound, block));
        let original = each(sides.original(sound, block));
        if n > 0 {
            ports.push(port);
            originals.push(original);
        }
    }
    line(name, block, ports, originals);
}

/// Nanoseconds of a call with no sample.
fn calls(name: &str, config: VadConfig, sound: &[f32]) {
    let mut sides = Sides::open(config);
    // Past the warm-up, with a carry.
    let heard = &sound[..40_001];
    sides.port(heard, 1_024);
    sides.original(heard, 1_024);
    let (mut ports, mut originals) = (Vec::new(), Vec::new());
    for _ in 0..ROUNDS {
        let start = Instant::now();
        for _ in 0..CALLS {
            black_box(sides.port.detect(black_box(&[])).expect("accepted"));
        }
        ports.push(start.elapsed().as_secs_f64() * 1e9 / CALLS as f64);
        let start = Instant::now();
        for _ in 0..CALLS {
            black_box(sides.original.detect(black_box(&[])).expect("accepted"));
        }
        originals.push(start.elapsed().as_secs_f64() * 1e9 / CALLS as f64);
    }
    line(name, 0, ports, originals);
}

/// Nanoseconds of a sample, from the stream's start up to so many minutes.
fn growth(minutes: &[u64], sound: &[f32]) {
    let mut sides = Sides::open(VadConfig::default());
    let (mut port, mut original, mut heard) = (Duration::ZERO, Duration::ZERO, 0);
    for &limit in minutes {
        while heard < limit * 60 * 16_000 {
            port += sides.port(sound, 1_024);
            original += sides.original(sound, 1_024);
            heard += sound.len() as u64;
        }
        let each = |time: Duration| time.as_secs_f64() * 1e9 / heard as f64;
        let (port, original) = (each(port), each(original));
        println!(
            "{:<36} {:>6} {port:>9.1} {original:>9.1} {:>7.2}",
            format!("{limit} minutes of speech"),
            1_024,
            port / original
        );
    }
}

fn main() {
    let speech = breakfast();
    let still = vec![0.0; speech.len()];
    let usual = VadConfig::default();
    let plain = VadConfig {
        sample_rate: 8_000,
        frame_duration: Duration::from_millis(10),
        frame_overlap: 0.0,
        pre_emphasis: None,
        ..usual
    };
    let large = VadConfig {
        sample_rate: 48_000,
        frame_duration: Duration::from_micros(42_666),
        frame_overlap: 0.75,
        ..usual
    };
    let head = |what: &str| {
        println!(
            "\n{what:<36} {:>6} {:>9} {:>9} {:>7}",
            "block", "port", "original", "ratio"
        )
    };

    head("ns a sample");
    for block in [160, 1_024] {
        samples("16 kHz, frames of 320, speech", usual, &speech, block);
        samples("16 kHz, frames of 320, silence", usual, &still, block);
        samples("8 kHz, frames of 80, speech", plain, &speech, block);
        samples("48 kHz, frames of 2,048, speech", large, &speech, block);
    }
    head("ns a call without samples");
    calls("16 kHz, frames of 320", usual, &speech);
    calls("8 kHz, frames of 80", plain, &speech);
    calls("48 kHz, frames of 2,048", large, &speech);
    head("ns a sample, as the stream grows");
    growth(&[1, 10, 60, 600], &speech);
}
