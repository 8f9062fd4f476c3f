//! The compiled detector against the original's, call by call, through the C door; demand 3's sentences on the fly; states stored and brought back.
//!
//! The long run: `tools/host test --release --test all -- --ignored --nocapture detector::`.

pub mod cases;
mod demand;
pub mod memory;

use cases::{Cutting, Sound};
use demand::Demand;
use fallowcart::VadConfig;
use fallowcart::layout::{ROW_FIELDS, float, number, row};
use memory::{Memory, unpacked};
use speech_prep::AudioTimestamp;
use speech_prep::probe::{Answer, Probe};

use crate::common::LONGEST;
use crate::common::for_original::ForOriginal;
use crate::common::long::long;
use crate::common::random::Random;
use crate::common::tally::{Tally, counts};

/// Segments of more loud frames are not held to the confidence: the original adds their scores up in f32.
const CONFIDENT: u64 = 4_096;

counts! {
    /// What the runs met.
    Met {
        Samples: "samples",
        Detects: "detects",
        Flushes: "flushes",
        Resets: "resets",
        Runs: "settings",
        Frames: "frames",
        Loud: "loud frames",
        Rows: "rows",
        LongRows: "rows too long to compare the confidence",
        Open: "calls after which a segment was open",
        Warming: "calls in the warm-up",
        Restored: "states stored and brought back",
        Refused13: "calls refused by 13",
        Refused15: "calls refused by 15",
        Refused16: "calls refused by 16",
        Refused18: "calls refused by 18",
        /// Before rounding.
        Halfway: "pre-emphasized values halfway between two floats",
        Subnormal: "subnormal pre-emphasized values",
    } greatest {
        Confidence: "millionths between the confidences at most",
    }
}

type Seen = Tally<Met>;

impl Seen {
    /// Looks at a block's pre-emphasized values in f64.
    fn meet(&mut self, config: &VadConfig, block: &[f32]) {
        let coefficient = f64::from(config.pre_emphasis.unwrap_or(0.0));
        for pair in block.windows(2) {
            let value = f64::from(pair[1]) - coefficient * f64::from(pair[0]);
            if value.abs() >= f64::from(f32::MIN_POSITIVE) {
                self.count(Met::Halfway, value.to_bits() & 0x1fff_ffff == 0x1000_0000);
            } else {
                self.count(Met::Subnormal, value != 0.0);
            }
        }
    }
}

/// The port in memory of its own, the original, and demand 3's log.
struct Sides {
    port: Memory,
    original: Probe,
    demand: Demand,
    config: VadConfig,
    /// Before each call the state is stored, its memory cleared and the state brought back.
    restoring: bool,
    rows: Vec<u64>,
}

/// Lent rows before a call: each place its own number.
fn old(n: usize) -> u64 {
    0xbeef_0000_0000_0000 | n as u64
}

impl Sides {
    fn open(config: VadConfig, restoring: bool) -> Sides {
        let original = Probe::open(config.for_original()).expect("the original accepts more");
        let mut port = Memory::old();
        let window = config.window().expect("accepted");
        let rise = config.speech_floor_rise().expect("accepted");
        assert_eq!(port.open(&config, &window, rise), 0, "{config:?}");
        let demand = Demand::new(&config);
        let mut sides = Sides {
            port,
            original,
            demand,
            config,
            restoring,
            rows: Vec::new(),
        };
        sides.demand.seen(&sides.port, &sides.port.readings());
        sides
    }

    fn restore(&mut self, seen: &mut Seen) {
        if self.restoring {
            let stored = self.port.stored();
            self.port = Memory::old();
            self.port.restore(&stored);
            seen[Met::Restored] += 1;
        }
    }

    /// A call that is refused: nothing is written anywhere.
    fn refused(
        &mut self,
        refusal: u32,
        carried: u64,
        room: usize,
        call: impl Fn(&mut Memory, &mut [u64]) -> u64,
    ) {
        let before = self.port.clone();
        self.rows = (0..room).map(old).collect();
        assert_eq!(
            unpacked(call(&mut self.port, &mut self.rows)),
            (refusal, carried),
            "{:?}",
            self.config
        );
        assert!(self.port.same(&before), "a refused call writes no state");
        assert!(
            self.rows.iter().enumerate().all(|(n, row)| *row == old(n)),
            "nor rows"
        );
        self.demand.seen(&self.port, &self.port.readings());
    }

    /// A block, or without one the stream's end, on both sides.
    fn call(&mut self, block: Option<&[f32]>, random: &mut Random, seen: &mut Seen) {
        let of_port = |memory: &mut Memory, rows: &mut [u64]| match block {
            Some(block) => memory.detect(block, rows),
            None => memory.flush(rows),
        };
        self.restore(seen);
        // Room for as many rows as there may be, or for few.
        let room = if random.one_in(2) {
            random.within(0, 3 * ROW_FIELDS as i32) as usize
        } else {
            60
        };
        self.rows.clear();
        self.rows.extend((0..room).map(old));
        let before = self.port.clone();
        let (mut refusal, carried) = unpacked(of_port(&mut self.port, &mut self.rows));
        let needed = (refusal == 18).then_some(carried);
        if let Some(needed) = needed {
            assert!(
                self.port.same(&before)
                    && self.rows.iter().enumerate().all(|(n, row)| *row == old(n))
            );
            assert!(
                (room / ROW_FIELDS) < needed as usize,
                "{needed} rows in {room} numbers"
            );
            self.demand.seen(&self.port, &self.port.readings());
            seen[Met::Refused18] += 1;
            self.rows.clear();
            let room =
                needed as usize * ROW_FIELDS + random.within(0, ROW_FIELDS as i32 - 1) as usize;
            self.rows.extend((0..room).map(old));
            refusal = unpacked(of_port(&mut self.port, &mut self.rows)).0;
        }
        assert_eq!(refusal, 0, "{:?}", self.config);
        let answer = match block {
            Some(block) => self.original.detect(block),
            None => self.original.flush(),
        };
        if let Some(needed) = needed {
            assert_eq!(
                self.port.numbers[number::ROWS],
                needed,
                "18 carries the rows needed"
            );
        }
        self.compare(
            &answer.expect("the original answers"),
            block.map(<[f32]>::len),
            seen,
        );
    }

    fn compare(&mut self, original: &Answer, block: Option<usize>, seen: &mut Seen) {
        let (port, config) = (&self.port, &self.config);
        let [frames, loud, quiet, reported] = port.counted();
        let stats = original.stats;
        assert_eq!(
            [frames, loud, quiet],
            [
                stats.frames_processed,
                stats.speech_frames,
                stats.silence_frames
            ],
            "frames of {config:?}"
        );
        assert_eq!(
            reported,
            original.segments.len() as u64,
            "rows of {config:?}"
        );
        let readings = port.readings();
        let floor = original.noise_floor.to_bits();
        assert_eq!(
            [readings.floor, port.floats[float::NOISE_FLOOR].to_bits()],
            [floor; 2],
            "floor of {config:?}"
        );
        let undecided = self.original.undecided_from() as u64;
        assert_eq!(readings.undecided, undecided, "{config:?}");
        let analyzed = self.original.analyzed_until() as u64;
        assert_eq!(readings.analyzed, analyzed, "{config:?}");
        let open = self.original.open_start().map(|start| start as u64);
        assert_eq!(readings.open, open, "{config:?}");

        let (rows, rest) = self.rows.as_chunks::<ROW_FIELDS>();
        let (rows, untouched) = rows.split_at(reported as usize);
        let places = rows.len() * ROW_FIELDS;
        let after = untouched.as_flattened().iter().chain(rest).enumerate();
        assert!(
            after.into_iter().all(|(n, row)| *row == old(places + n)),
            "numbers past the rows stay"
        );
        for (fields, chunk) in rows.iter().zip(&original.segments) {
            let [start, end] = [row::START_SAMPLE, row::END_SAMPLE].map(|n| fields[n]);
            let [start_time, end_time] = [row::START_TIME, row::END_TIME].map(|n| fields[n]);
            let [score, loud] = [row::SCORE_TOTAL, row::LOUD_FRAMES].map(|n| fields[n]);
            let energy = fields[row::MEAN_ENERGY];
            let rate = u128::from(config.sample_rate);
            let time = |sample: u64| {
                let nanos = (u128::from(sample) * 1_000_000_000 + rate / 2) / rate;
                (u128::from(config.stream_start_time) + nanos) as u64
            };
            assert_eq!(
                [start_time, end_time],
                [chunk.start_time.nanos(), chunk.end_time.nanos()],
                "{config:?}"
            );
            assert_eq!(
                [time(start), time(end)],
                [start_time, end_time],
                "samples of {config:?}"
            );
            assert_eq!(loud, chunk.frame_count as u64, "{config:?}");
            assert_eq!(energy, u64::from(chunk.avg_energy.to_bits()), "{config:?}");
            if loud <= CONFIDENT {
                let confidence = score as f64 / (1024 * loud) as f64;
                let apart = (confidence - f64::from(chunk.confidence)).abs();
                assert!(
                    apart <= 0.002,
                    "confidence {confidence}, {} of {config:?}",
                    chunk.confidence
                );
                seen[Met::Confidence] = seen[Met::Confidence].max((apart * 1e6) as u64);
            } else {
                seen[Met::LongRows] += 1;
            }
        }
        self.demand.call(port, &readings, block, rows);
        assert!(port.zeros_past(), "zeros past the used parts of the arrays");
        seen[Met::Frames] += frames;
        seen[Met::Loud] += loud;
        seen[Met::Rows] += reported;
        seen.count(Met::Open, open.is_some());
        seen.count(Met::Warming, port.warming());
    }

    fn reset(&mut self, start: u64, seen: &mut Seen) {
        self.restore(seen);
        assert_eq!(self.port.reset(start), 0);
        self.original.reset(AudioTimestamp::from_nanos(start));
        self.config.stream_start_time = start;
        self.demand = Demand::new(&self.config);
        self.demand.seen(&self.port, &self.port.readings());
        seen[Met::Resets] += 1;
    }
}

/// One opening and what follows, about so many samples or so many calls.
fn run(seed: u64, samples: u64, calls: u64, seen: &mut Seen) {
    let mut random = Random::new(seed);
    let config = random.detector_config();
    let restoring = random.one_in(4);
    let mut sides = Sides::open(config, restoring);
    let mut sound = Sound::new(Random::new(random.word()), &config);
    let cutting = Cutting::new(&mut random);
    // Some runs have none of the rare calls, so that streams get long.
    let rare = if random.one_in(3) { u64::MAX } else { 40 };
    seen[Met::Runs] += 1;
    let (mut heard, mut called) = (0, 0);
    let mut block = [0.0; LONGEST + 1];
    while heard < samples && called < calls {
        called += 1;
        if random.one_in(rare) {
            match random.within(0, 5) {
                0 | 1 => {
                    sides.call(None, &mut random, seen);
                    seen[Met::Flushes] += 1;
                }
                2 => sides.reset(random.detector_start(), seen),
                3 => {
                    let start = 1 << 63 | random.word();
                    sides.refused(13, 0, 0, |memory, _| memory.reset(start));
                    seen[Met::Refused13] += 1;
                }
                4 => {
                    sides.refused(15, 0, 8, |memory, rows| memory.detect(&block, rows));
                    seen[Met::Refused15] += 1;
                }
                _ => {
                    let length = random.within(1, LONGEST as i32) as usize;
                    let place = random.within(0, length as i32 - 1) as usize;
                    let mut bad = block;
                    bad[place] = random.detector_bad_sample();
                    sides.refused(16, place as u64, 8, |memory, rows| {
                        memory.detect(&bad[..length], rows)
                    });
                    seen[Met::Refused16] += 1;
                }
            }
        }
        let length = cutting.next_length(&mut random);
        for sample in &mut block[..length] {
            *sample = sound.next_sample();
        }
        seen.meet(&config, &block[..length]);
        sides.call(Some(&block[..length]), &mut random, seen);
        seen[Met::Detects] += 1;
        heard += length as u64;
        seen[Met::Samples] += length as u64;
    }
    sides.call(None, &mut random, seen);
    seen[Met::Flushes] += 1;
}

/// Every kind of call was met.
fn covered(seen: &Seen) {
    seen.assert_met(&[
        Met::Resets,
        Met::Rows,
        Met::Open,
        Met::Warming,
        Met::Restored,
        Met::Refused13,
        Met::Refused15,
        Met::Refused16,
        Met::Refused18,
        Met::Loud,
        Met::Halfway,
        Met::Subnormal,
    ]);
    assert!(seen[Met::Frames] > seen[Met::Loud], "{seen}");
}

#[test]
fn runs_are_the_original_s() {
    let mut seen = Seen::default();
    for seed in 0..120 {
        run(seed, 50_000, 120, &mut seen);
    }
    covered(&seen);
    seen.say("detector");
}

#[test]
#[ignore = "a long run"]
fn long_runs_are_the_original_s() {
    const RUNS: u64 = 20_000;
    let (seen, time): (Seen, _) = long("detector", RUNS, |seen, block| {
        run(1_000_000 + block, 80_000, 400, seen);
    });
    covered(&seen);
    assert!(seen[Met::Samples] >= 1_000_000_000);
    seen.say_after("detector", time);
}
