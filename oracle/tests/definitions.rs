//! The port's definitions against the original. A file of the port's proofs holds what the original answered in two small runs, and the prover
//! computes the same answers from the definitions; here the original is run again and held to the lists in that file. A frame's energy is
//! private in the original, but with no smoothing and a gate that nothing reaches the noise floor after a call of one frame is that energy.

mod common;

use common::row_fields;
use speech_prep::probe::{Answer, Probe};
use speech_prep::{AudioDuration, VadConfig};

const FRAMES: &str = include_str!("../../crates/vad_runs/proofs/Frames.antt");
const SEGMENTS: &str = include_str!("../../crates/vad_runs/proofs/Segments.antt");

const FRAME: usize = 16;
const HOP: usize = 8;

/// The numbers of the definition `name` in an antt file, a list or a list of lists.
fn list(source: &str, name: &str) -> Vec<u64> {
    let text = source.split(&format!("\n{name} =")).nth(1).expect(name);
    let (list, _) = text.split_once("\n\n").unwrap();
    let number = |word: &str| match word.replace('_', "") {
        hex if hex.starts_with("0x") => u64::from_str_radix(&hex[2..], 16).unwrap(),
        decimal => decimal.parse().unwrap(),
    };
    list.split(|c: char| c != '_' && !c.is_ascii_alphanumeric())
        .filter(|word| !word.is_empty())
        .map(number)
        .collect()
}

/// Prints a list as the antt file has it, and holds it to that file.
fn hold(source: &str, name: &str, found: &[u64], hex: bool) {
    let words: Vec<String> = found
        .iter()
        .map(|n| match hex {
            true => format!("0x{:04X}_{:04X}", n >> 16, n & 0xFFFF),
            false => n.to_string(),
        })
        .collect();
    println!("{name} = {} ∷ []", words.join(" ∷ "));
    assert_eq!(list(source, name), found, "{name}");
}

fn bits(numbers: &[f32]) -> Vec<u64> {
    numbers.iter().map(|x| u64::from(x.to_bits())).collect()
}

/// 8 kHz, frames of 2 ms, each half over the next.
fn settings() -> VadConfig {
    VadConfig {
        sample_rate: 8_000,
        frame_duration: AudioDuration::from_millis(2),
        frame_overlap: 0.5,
        ..VadConfig::default()
    }
}

/// A detector whose warm-up is over, by a flush with no frame.
fn warm(config: VadConfig) -> Probe {
    let probe = Probe::open(config).unwrap();
    probe.flush().unwrap();
    probe
}

/// The energies of all frames, the short last one included.
fn energies(pre_emphasis: Option<f32>, samples: &[f32]) -> Vec<f32> {
    let probe = warm(VadConfig {
        pre_emphasis,
        min_speech_energy: f32::MAX,
        noise_smoothing: 0.0,
        energy_floor: f32::MIN_POSITIVE,
        ..settings()
    });
    let mut energies = Vec::new();
    let mut hear = |answer: Answer| match answer.stats.frames_processed {
        0 => (),
        1 => energies.push(answer.noise_floor),
        n => panic!("{n} frames in one call"),
    };
    for block in samples.chunks(HOP) {
        hear(probe.detect(block).unwrap());
    }
    // A flush can end in two short frames, and shows one floor: the first is heard with the zeros that it stands for.
    let rest = samples.len() % HOP;
    if rest != 0 {
        hear(probe.detect(&[0.0; HOP][rest..]).unwrap());
    }
    hear(probe.flush().unwrap());
    energies
}

/// Numbers in [-1, 1] that follow no pattern.
fn noise(n: usize) -> f32 {
    let word = (n as u32 + 1).wrapping_mul(2_654_435_761) ^ 0x5bd1_e995;
    (word.wrapping_mul(word | 1) >> 8) as f32 / 8_388_608.0 - 1.0
}

/// The window, by the original's expression.
fn hann(n: usize) -> f32 {
    let angle = 2.0 * std::f32::consts::PI * n as f32 / (FRAME - 1) as f32;
    0.5f32.mul_add(-angle.cos(), 0.5)
}

#[test]
fn energies_of_frames() {
    let samples: Vec<f32> = (0..5 * HOP).map(|n| 0.25 * noise(n)).collect();
    let window: Vec<f32> = (0..FRAME).map(hann).collect();
    let energies = energies(Some(0.97), &samples);
    assert_eq!(energies.len(), 5, "four whole frames and a short one");
    hold(FRAMES, "samples", &bits(&samples), true);
    hold(FRAMES, "window", &bits(&window), true);
    hold(FRAMES, "energies", &bits(&energies), true);
}

/// How loud each hop of the second run is: bursts, pauses that the hangover bears, one burst too short for a row.
const LEVELS: [f32; 44] = [
    0.01, 0.012, 0.4, 0.3, 0.35, 0.01, 0.01, 0.01, 0.5, 0.6, 0.01, 0.01, 0.01, 0.02, 0.9, 0.01,
    0.01, 0.01, 0.01, 0.06, 0.08, 0.1, 0.09, 0.07, 0.01, 0.01, 0.01, 0.01, 0.2, 0.3, 0.2, 0.01,
    0.01, 0.4, 0.5, 0.6, 0.01, 0.02, 0.01, 0.01, 0.07, 0.1, 0.2, 0.3,
];

/// Where the second run is cut, in samples; each flush stands after the block before it.
const CUTS: [usize; 19] = [
    3, 21, 24, 16, 8, 8, 8, 0, 31, 17, 16, 32, 32, 20, 26, 24, 34, 16, 16,
];
const FLUSHED: [usize; 2] = [16, 19];

#[test]
fn rows_of_segments() {
    let samples: Vec<f32> = (0..LEVELS.len() * HOP)
        .map(|n| LEVELS[n / HOP] * noise(n))
        .collect();
    assert_eq!(CUTS.iter().sum::<usize>(), samples.len());

    let config = VadConfig {
        pre_emphasis: None,
        activation_ratio: 3.0,
        release_ratio: 2.0,
        min_speech_energy: 0.004,
        noise_smoothing: 0.5,
        energy_floor: 0.0078125,
        hangover_frames: 1,
        speech_padding: AudioDuration::from_millis(3),
        min_speech_frames: 3,
        ..settings()
    };
    let rise = (-(HOP as f64 / 8_000.0) / 5.0).exp() as f32;
    let probe = warm(config);
    let (mut received, mut begun) = (0, 0);
    // For each call: the sound received, where its frames begin, the frames before it, its frames, whether it was a flush.
    let mut calls = Vec::new();
    let mut before = 0;
    // For each call: the floor's bits, the loud frames, the rows and what the original says of each.
    let mut answers = Vec::new();
    // After each call: where frames were left, and the undecided position.
    let mut positions = Vec::new();
    let mut heard = Vec::new();
    let mut take = |received: usize, finish: bool, block: &[f32]| {
        let start = probe.analyzed_until();
        let answer = match finish {
            true => probe.flush().unwrap(),
            false => probe.detect(block).unwrap(),
        };
        positions.extend([probe.analyzed_until() as u64, probe.undecided_from() as u64]);
        let frames = answer.stats.frames_processed;
        calls.extend([
            received as u64,
            start as u64,
            before,
            frames,
            u64::from(finish),
        ]);
        before += frames;
        answers.extend([
            u64::from(answer.noise_floor.to_bits()),
            answer.stats.speech_frames,
            answer.segments.len() as u64,
        ]);
        for row in answer.segments {
            let (start, end) = (row.start_time.nanos(), row.end_time.nanos());
            let score = (row.confidence * 1024.0 * row.frame_count as f32).round() as u64;
            answers.extend([start / 125_000, end / 125_000, start, end, score]);
            answers.extend([row.frame_count as u64, u64::from(row.avg_energy.to_bits())]);
        }
    };
    for (n, cut) in CUTS.iter().enumerate() {
        let block = &samples[received..received + cut];
        received += cut;
        take(received, false, block);
        if FLUSHED.contains(&(n + 1)) {
            heard.extend(energies(None, &samples[begun..received]));
            begun = received;
            take(received, true, &[]);
        }
    }
    hold(SEGMENTS, "energies", &bits(&heard), true);
    hold(SEGMENTS, "calls", &calls, false);
    hold(SEGMENTS, "positions", &positions, false);
    println!("rise 0x{:08X}", rise.to_bits());
    println!("answers (scores by the confidence) {answers:?}");

    // The port's scores are its own; they stand for the confidence within 0.002.
    let ours = list(SEGMENTS, "answers");
    assert_eq!(ours.len(), answers.len());
    let fields = row_fields();
    let [score_total, loud_frames] = ["score_total", "loud_frames"].map(|name| {
        let place = fields.iter().position(|field| *field == name);
        place.expect("a field of the row")
    });
    let (mut at, mut rows) = (0, 0);
    while at < ours.len() {
        assert_eq!(ours[at..at + 3], answers[at..at + 3], "at {at}");
        let n = ours[at + 2] as usize;
        at += 3;
        for _ in 0..n {
            let [our, row] = [&ours, &answers].map(|all| &all[at..][..fields.len()]);
            for n in (0..fields.len()).filter(|&n| n != score_total) {
                assert_eq!(our[n], row[n], "at {}", at + n);
            }
            let [our_score, score] = [our, row].map(|row| row[score_total]);
            let distance = our_score.abs_diff(score) as f64 / (1024 * row[loud_frames]) as f64;
            assert!(distance <= 0.002, "at {at}: {our_score} and {score}");
            at += fields.len();
            rows += 1;
        }
    }
    assert_eq!(rows, 4, "rows");
}
