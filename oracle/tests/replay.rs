//! What `crates/vad_replay` replays: some hundred calls, and what the original answered. The original is run again here, and the program's two files
//! are held to it; `REPLAY_WRITE=1 cargo test --manifest-path oracle/Cargo.toml --test replay` makes them anew.

mod common;

use std::fmt::Write as _;
use std::path::PathBuf;

use common::row_fields;
use speech_prep::probe::{Answer, Probe};
use speech_prep::{AudioDuration, AudioTimestamp, VadConfig};

/// How many rows a call of the list lends numbers for at most.
const ROWS_MOST: usize = 64;

/// How many numbers that many rows take.
fn room(rows: usize) -> usize {
    rows * row_fields().len()
}

/// The calls as the program reads them, and the lines that it must print.
#[derive(Default)]
struct List {
    input: Vec<u8>,
    output: String,
    calls: usize,
    rows: usize,
    samples: usize,
}

impl List {
    fn word(&mut self, word: u32) {
        self.input.extend(word.to_le_bytes());
    }

    fn long(&mut self, long: u64) {
        self.input.extend(long.to_le_bytes());
    }

    fn numbers(&mut self, numbers: &[f32]) {
        for number in numbers {
            self.word(number.to_bits());
        }
    }

    fn opening(&mut self, config: &VadConfig, window: &[f32], rise: f32, refusal: u32) {
        // The program begins with an opening, so the first has no number of its own.
        if !self.input.is_empty() {
            self.word(1);
        }
        self.word(config.sample_rate);
        self.long(config.frame_duration.as_nanos() as u64);
        self.numbers(&[config.frame_overlap]);
        self.word(u32::from(config.pre_emphasis.is_some()));
        self.numbers(&[
            config.pre_emphasis.unwrap_or(0.0),
            config.activation_ratio,
            config.release_ratio,
            config.min_speech_energy,
            config.noise_smoothing,
            config.energy_floor,
        ]);
        self.long(config.hangover_frames as u64);
        self.long(config.speech_padding.as_nanos() as u64);
        self.long(config.min_speech_frames as u64);
        self.long(config.stream_start_time.nanos());
        self.numbers(&[rise]);
        self.word(window.len() as u32);
        self.numbers(window);
        writeln!(self.output, "opened {refusal}").unwrap();
        self.calls += 1;
    }

    /// A detect or, with no block, a flush, with that many numbers lent for rows.
    fn call(&mut self, block: Option<&[f32]>, room: usize) {
        self.calls += 1;
        match block {
            Some(block) => {
                self.word(2);
                self.word(room as u32);
                self.word(block.len() as u32);
                self.numbers(block);
                self.samples += block.len();
            }
            None => {
                self.word(3);
                self.word(room as u32);
            }
        }
    }

    fn refused(&mut self, block: Option<&[f32]>, room: usize, number: u32, carries: usize) {
        self.call(block, room);
        writeln!(self.output, "refused {number} {carries}").unwrap();
    }

    /// A call that is accepted. Where the original reports rows, the port is first asked with a number too few for them.
    fn heard(&mut self, block: Option<&[f32]>, probe: &Probe, answer: &Answer) {
        let rows = answer.segments.len();
        if rows > 0 {
            self.refused(block, room(rows) - 1, 18, rows);
        }
        self.call(block, room(rows.min(ROWS_MOST)));
        let open = probe
            .open_start()
            .map_or("-".into(), |start| start.to_string());
        writeln!(
            self.output,
            "heard {} {} {} {:08x} {} {} {open}",
            answer.stats.frames_processed,
            answer.stats.speech_frames,
            answer.stats.silence_frames,
            answer.noise_floor.to_bits(),
            probe.undecided_from(),
            probe.analyzed_until(),
        )
        .unwrap();
        for row in &answer.segments {
            writeln!(
                self.output,
                "row {} {} {} {:08x}",
                row.start_time.nanos(),
                row.end_time.nanos(),
                row.frame_count,
                row.avg_energy.to_bits(),
            )
            .unwrap();
        }
        self.rows += rows;
    }

    fn detect(&mut self, probe: &Probe, block: &[f32]) {
        let answer = probe.detect(block).unwrap();
        self.heard(Some(block), probe, &answer);
    }

    fn flush(&mut self, probe: &Probe) {
        let answer = probe.flush().unwrap();
        self.heard(None, probe, &answer);
    }

    fn reset(&mut self, probe: &mut Probe, start: u64) {
        probe.reset(AudioTimestamp::from_nanos(start));
        self.calls += 1;
        self.word(4);
        self.long(start);
        writeln!(self.output, "reset 0").unwrap();
    }

    fn reset_refused(&mut self, start: u64, number: u32) {
        self.calls += 1;
        self.word(4);
        self.long(start);
        writeln!(self.output, "reset {number}").unwrap();
    }
}

/// Numbers in [-1, 1] that follow no pattern.
fn noise(n: usize) -> f32 {
    let word = (n as u32 + 1).wrapping_mul(2_654_435_761) ^ 0x5bd1_e995;
    (word.wrapping_mul(word | 1) >> 8) as f32 / 8_388_608.0 - 1.0
}

/// A quiet room with bursts of a tenth of a second to a half, and pauses between them.
fn sound(rate: usize, n: usize) -> f32 {
    let part = n * 20 / rate;
    let level = match part % 16 {
        4 | 5 | 6 | 9 | 10 => 0.3,
        7 => 0.05,
        13 => 0.8,
        _ => 0.004,
    };
    level * noise(n)
}

/// The window, by the original's expression.
fn hann(length: usize) -> Vec<f32> {
    if length == 1 {
        return vec![1.0];
    }
    let angle = |n: usize| 2.0 * std::f32::consts::PI * n as f32 / (length - 1) as f32;
    (0..length)
        .map(|n| 0.5f32.mul_add(-angle(n).cos(), 0.5))
        .collect()
}

/// The rise weight, by the original's expression.
fn rise(config: &VadConfig) -> f32 {
    let hop = config.hop_length_samples().unwrap() as f64 / f64::from(config.sample_rate);
    (-hop / 5.0).exp() as f32
}

fn open(list: &mut List, config: VadConfig) -> Probe {
    let window = hann(config.frame_length_samples().unwrap());
    list.opening(&config, &window, rise(&config), 0);
    Probe::open(config).unwrap()
}

/// The settings of the runs, at 8 kHz so that the list stays short.
fn settings() -> VadConfig {
    VadConfig {
        sample_rate: 8_000,
        hangover_frames: 3,
        ..VadConfig::default()
    }
}

/// Blocks of these lengths, over and over.
fn blocks(list: &mut List, probe: &Probe, from: usize, to: usize, lengths: &[usize]) {
    let (mut at, mut turn) = (from, 0);
    while at < to {
        let end = to.min(at + lengths[turn % lengths.len()]);
        let block: Vec<f32> = (at..end).map(|n| sound(8_000, n)).collect();
        list.detect(probe, &block);
        at = end;
        turn += 1;
    }
}

/// Runs of whole frames of 80 samples without overlap, one a call, past a warm-up that a flush ended: `.` is quiet, `-` between the two ratios, `#` loud, `f` a
/// flush, and `r` a reset with a flush after it. Each run is about one rule.
fn rules(list: &mut List) {
    let plain = VadConfig {
        frame_duration: AudioDuration::from_millis(10),
        frame_overlap: 0.0,
        pre_emphasis: None,
        activation_ratio: 4.0,
        release_ratio: 2.0,
        min_speech_energy: 0.0,
        noise_smoothing: 0.0,
        energy_floor: 0.001,
        hangover_frames: 1,
        speech_padding: AudioDuration::from_millis(5),
        min_speech_frames: 1,
        ..settings()
    };
    let ms = AudioDuration::from_millis;
    let changed = |change: fn(&mut VadConfig)| {
        let mut config = plain;
        change(&mut config);
        config
    };
    for (config, run) in [
        // The ratios: between them nothing begins, and what is open goes on.
        (plain, "..---..#--..."),
        // A silence run of the hangover stays, one more closes; hangover frames do not move the end.
        (changed(|c| c.hangover_frames = 0), "..#.##..#.."),
        (changed(|c| c.hangover_frames = 2), "..#..#...#...."),
        // Runs of too few loud frames are dropped, and still move the end that a new start and a padding stop at.
        (changed(|c| c.min_speech_frames = 3), "..##..###..#..f"),
        (changed(|c| c.min_speech_frames = 2), ".#..##..#f.##.."),
        // Padding: none, more than the pause, more than the stream has.
        (
            changed(|c| c.speech_padding = AudioDuration::ZERO),
            "..##..#..",
        ),
        (
            changed(|c| c.speech_padding = AudioDuration::from_millis(40)),
            "..#...#...#...",
        ),
        (
            changed(|c| c.speech_padding = AudioDuration::from_secs(1)),
            "#...##...#",
        ),
        // The gate: loud for the ratio, too quiet for it.
        (changed(|c| c.min_speech_energy = 0.2), "..--#..##-.."),
        // The floor: quick, slow, and from the energy floor up.
        (changed(|c| c.noise_smoothing = 0.99), "..####..-##..."),
        (changed(|c| c.energy_floor = 0.25), "..##..####...."),
        (changed(|c| c.release_ratio = 1.0), "..#-.-....#..."),
        (changed(|c| c.activation_ratio = 2.0), "..-.--..#..."),
        // Flush in speech, in a pause and in silence, detect after it, and a reset.
        (plain, "..#f#.f.f##r..#..#f"),
        // Pre-emphasis over the block's edge.
        (changed(|c| c.pre_emphasis = Some(0.5)), "..##-..#..."),
    ] {
        let mut probe = open(list, config);
        list.flush(&probe);
        let mut at = 0;
        for call in run.chars() {
            let level = match call {
                'f' => {
                    list.flush(&probe);
                    continue;
                }
                'r' => {
                    list.reset(&mut probe, ms(7).as_nanos() as u64);
                    list.flush(&probe);
                    continue;
                }
                '#' => 1.0,
                '-' => 0.05,
                _ => 0.015_625,
            };
            let block: Vec<f32> = (at..at + 80)
                .map(|n| level * (0.75 + 0.25 * noise(n)))
                .collect();
            list.detect(&probe, &block);
            at += 80;
        }
        list.flush(&probe);
    }
}

/// Settings that the port refuses, by number.
fn bad_settings() -> Vec<(VadConfig, u32)> {
    let changed = |number, change: fn(&mut VadConfig)| {
        let mut config = settings();
        change(&mut config);
        (config, number)
    };
    vec![
        changed(1, |c| c.sample_rate = 7_999),
        changed(1, |c| c.sample_rate = 48_001),
        changed(2, |c| c.frame_duration = AudioDuration::ZERO),
        changed(2, |c| {
            c.frame_duration = AudioDuration::from_nanos(1_000_000_001)
        }),
        changed(3, |c| c.frame_overlap = 1.0),
        changed(4, |c| c.pre_emphasis = Some(-0.01)),
        changed(5, |c| c.release_ratio = 0.99),
        changed(6, |c| c.activation_ratio = 1.2),
        changed(7, |c| c.min_speech_energy = f32::INFINITY),
        changed(8, |c| c.noise_smoothing = 1.0),
        changed(9, |c| c.energy_floor = 0.0),
        changed(10, |c| c.min_speech_frames = 0),
        changed(12, |c| c.frame_overlap = 0.96),
        changed(13, |c| {
            c.speech_padding = AudioDuration::from_nanos(1_000_000_001)
        }),
        changed(13, |c| c.hangover_frames = 10_001),
        changed(13, |c| c.min_speech_frames = 10_001),
        changed(13, |c| {
            c.stream_start_time = AudioTimestamp::from_nanos(1 << 63)
        }),
    ]
}

fn runs() -> List {
    let mut list = List::default();

    // The defaults, with pre-emphasis; an empty block, the longest, a flush, a new grid after it, and refused calls.
    let mut probe = open(&mut list, settings());
    blocks(&mut list, &probe, 0, 4_800, &[160, 0, 1, 79, 1_024]);
    list.refused(Some(&[0.0; 1_025]), room(ROWS_MOST), 15, 0);
    let mut bad = [0.25; 32];
    bad[7] = f32::NAN;
    bad[9] = 65_537.0;
    list.refused(Some(&bad), room(ROWS_MOST), 16, 7);
    bad[7] = -65_536.0;
    list.refused(Some(&bad), room(ROWS_MOST), 16, 9);
    list.flush(&probe);
    list.flush(&probe);
    blocks(&mut list, &probe, 4_800, 9_000, &[333]);
    list.flush(&probe);
    list.reset_refused(1 << 63, 13);
    list.reset(&mut probe, 1_000_000_000_000_000_007);
    blocks(&mut list, &probe, 700, 5_000, &[500]);
    list.flush(&probe);

    // Hops of 8 samples, so a warm-up of 300 frames; the block that completes it brings many frames more.
    let short = VadConfig {
        frame_duration: AudioDuration::from_millis(2),
        pre_emphasis: None,
        min_speech_frames: 1,
        ..settings()
    };
    let probe = open(&mut list, short);
    blocks(&mut list, &probe, 0, 4_100, &[1_000]);
    blocks(&mut list, &probe, 4_100, 6_000, &[13, 640]);
    list.flush(&probe);

    // A flush in the warm-up, with frames held and a short one; then one with no frame at all.
    let mut probe = open(&mut list, short);
    blocks(&mut list, &probe, 1_500, 2_503, &[100]);
    list.flush(&probe);
    blocks(&mut list, &probe, 2_503, 3_600, &[200]);
    list.flush(&probe);
    list.reset(&mut probe, 5);
    list.flush(&probe);
    blocks(&mut list, &probe, 1_800, 3_000, &[97]);
    list.flush(&probe);

    // Frames of a quarter of a second, three quarters over the next, and no hangover.
    let long = VadConfig {
        frame_duration: AudioDuration::from_millis(250),
        frame_overlap: 0.75,
        activation_ratio: 1.6,
        release_ratio: 1.2,
        noise_smoothing: 0.5,
        hangover_frames: 0,
        min_speech_frames: 1,
        ..settings()
    };
    let probe = open(&mut list, long);
    blocks(&mut list, &probe, 0, 9_000, &[1_024, 5]);
    list.flush(&probe);

    rules(&mut list);

    // Settings that are refused, one number after the other, and calls on the state that such an opening leaves.
    for (config, number) in bad_settings() {
        list.opening(&config, &[], 0.75, number);
    }
    let refused = VadConfig {
        frame_duration: AudioDuration::from_millis(300),
        ..settings()
    };
    list.opening(&refused, &[], 0.75, 11);
    list.refused(Some(&[]), 0, 19, 0);
    list.refused(None, 0, 19, 0);
    list.reset_refused(0, 19);
    list.opening(&settings(), &[0.5; 159], 0.75, 14);
    list.word(0);
    list
}

fn path(name: &str) -> PathBuf {
    PathBuf::from(env!("CARGO_MANIFEST_DIR"))
        .join("../crates/vad_replay")
        .join(name)
}

#[test]
fn the_list_is_the_originals() {
    let list = runs();
    println!(
        "{} calls, {} samples, {} rows",
        list.calls, list.samples, list.rows
    );
    if std::env::var_os("REPLAY_WRITE").is_some() {
        std::fs::write(path("stdin"), &list.input).unwrap();
        std::fs::write(path("stdout"), &list.output).unwrap();
    }
    assert!(
        std::fs::read(path("stdin")).unwrap() == list.input,
        "crates/vad_replay/stdin"
    );
    assert_eq!(
        std::fs::read_to_string(path("stdout")).unwrap(),
        list.output
    );
}
