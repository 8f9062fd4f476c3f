//! The original is unchanged, opens, and finds speech; and what its sums start from.

use std::process::Command;

use speech_prep::preprocessing::{DcHighPassFilter, PreprocessingConfig};
use speech_prep::probe::Probe;
use speech_prep::{AudioTimestamp, VadConfig};

const RATE: usize = 16_000;

/// Half a second of near silence, a second of a voice-like tone, half a second of near silence.
fn recording() -> Vec<f32> {
    (0..2 * RATE)
        .map(|n| {
            let t = n as f32 / RATE as f32;
            let hiss = ((n * 7919) % 251) as f32 / 251.0 - 0.5;
            let voiced = (RATE / 2..3 * RATE / 2).contains(&n);
            let tone: f32 = [140.0, 280.0, 700.0, 1220.0, 2600.0]
                .iter()
                .map(|hz| (2.0 * std::f32::consts::PI * hz * t).sin())
                .sum();
            0.001 * hiss + if voiced { 0.05 * tone } else { 0.0 }
        })
        .collect()
}

#[test]
fn files_are_unchanged() {
    let run = Command::new("sha256sum")
        .args(["--check", "--strict", "SHA256SUMS"])
        .current_dir(env!("CARGO_MANIFEST_DIR"))
        .output()
        .expect("sha256sum, of Debian's coreutils");
    assert!(
        run.status.success(),
        "{}",
        String::from_utf8_lossy(&run.stdout)
    );
    let listed = include_str!("../SHA256SUMS").lines().count();
    assert_eq!(listed, 5, "the five files of the original");
}

#[test]
fn the_defaults_open() {
    assert!(Probe::open(VadConfig::default()).is_ok());
    assert!(DcHighPassFilter::new(PreprocessingConfig::default()).is_ok());
}

#[test]
fn a_recording_gives_its_one_segment() {
    let probe = Probe::open(VadConfig::default()).unwrap();
    let mut segments = Vec::new();
    let (mut frames, mut loud, mut quiet) = (0, 0, 0);
    let mut undecided = 0;
    let recording = recording();
    let blocks = recording.chunks(160).map(|block| probe.detect(block));
    for (n, answer) in blocks
        .chain(std::iter::once_with(|| probe.flush()))
        .enumerate()
    {
        let answer = answer.unwrap();
        frames += answer.stats.frames_processed;
        loud += answer.stats.speech_frames;
        quiet += answer.stats.silence_frames;
        assert!(answer.noise_floor >= VadConfig::default().energy_floor);
        assert!(
            probe.undecided_from() >= undecided,
            "the undecided position goes back"
        );
        undecided = probe.undecided_from();
        // Frames of 320 samples start at each 160th: the one that starts with the newest block is not complete, until the flush.
        assert_eq!(probe.analyzed_until(), 160 * n);
        segments.extend(answer.segments);
    }

    assert_eq!(segments.len(), 1, "{segments:?}");
    let near = |time: AudioTimestamp, seconds: f64| (time.as_secs() - seconds).abs() < 0.1;
    assert!(
        near(segments[0].start_time, 0.5) && near(segments[0].end_time, 1.5),
        "{segments:?}"
    );
    assert!(
        segments[0].frame_count > 80 && segments[0].confidence > 0.5,
        "{segments:?}"
    );
    assert_eq!(
        frames, 200,
        "one frame each 10 ms of two seconds, the last one short"
    );
    assert_eq!(loud + quiet, frames);
    assert_eq!(loud as usize, segments[0].frame_count);
    assert_eq!(probe.open_start(), None);
}

/// Document 01 asks which zero the sums of the pinned Rust start from: docs/DECISIONS.md has the answer and the compiler.
#[test]
fn sums_start_from_minus_zero() {
    assert_eq!([0f32; 0].iter().sum::<f32>().to_bits(), (-0f32).to_bits());
    assert_eq!(
        [-0f32, -0f32].iter().sum::<f32>().to_bits(),
        (-0f32).to_bits()
    );
    assert_eq!([-0f32, 0f32].iter().sum::<f32>().to_bits(), 0f32.to_bits());
}

/// The same zero, seen through the filter: the bias is first brought to −0 (a tiny negative one that shrinks away), and then a block of −0
/// keeps it there. Had the sum started from +0, the bias would be +0.
#[test]
fn the_zero_shows_in_the_filter() {
    let config = PreprocessingConfig {
        dc_bias_alpha: 0.4,
        enable_highpass: false,
        ..Default::default()
    };
    let mut filter = DcHighPassFilter::new(config).unwrap();
    let smallest = f32::from_bits(1);
    for (block, bias) in [(-smallest, -smallest), (0.0, -0.0), (-0.0, -0.0)] {
        filter.process(&[block], None).unwrap();
        assert_eq!(
            filter.dc_bias().to_bits(),
            bias.to_bits(),
            "after a block of {block:e}"
        );
    }
}
