//! The compiled filter against the original's, bit by bit, and every refusal of it against 01's words.
//!
//! The long run: `tools/host test --release --test all -- --ignored --nocapture filter::`.

mod cases;
mod judge;

use std::collections::BTreeSet;

use cases::{COMMON_RATES, Cutting, Sound, below, power};
use fallowcart::layout::{filter, stage};
use fallowcart::{Filter, HighpassOrder, PreprocessingConfig, Refusal, VadContext, raw};
use judge::{FLAGS, NAMES, Operation, RANGES, STAGES, State};
use speech_prep::preprocessing as original;

use crate::common::for_original::ForOriginal;
use crate::common::long::long;
use crate::common::random::Random;
use crate::common::tally::{Each, Tally, counts};
use crate::common::{FULL, LONGEST};

counts! {
    /// What the runs met.
    Count {
        Samples: "samples",
        Calls: "calls",
        Settings: "settings",
        Missed: "more settings for which the formulas miss 24's ranges",
        FullScale: "samples of magnitude 65,536",
        Subnormal: "subnormal outputs",
        MinusZero: "outputs of -0",
        PlusZero: "outputs of +0",
        /// Biases after a call.
        BiasMinusZero: "biases of -0",
        BiasSubnormal: "subnormal biases",
        BiasNormal: "normal biases",
        Resets: "resets",
        Restored: "states restored",
        Refused15: "calls refused by 15",
        Refused16: "calls refused by 16",
        Refused25: "calls refused by 25",
    }
}

type Seen = Tally<Count>;

fn bits(samples: &[f32]) -> Vec<u32> {
    samples.iter().map(|sample| sample.to_bits()).collect()
}

/// Output before a call: each place its own number, so that anything written shows.
fn old(len: usize) -> Vec<f32> {
    (0..len as u32)
        .map(|n| f32::from_bits(0xdead_0000 | n))
        .collect()
}

fn context(is_silence: Option<bool>) -> Option<VadContext> {
    is_silence.map(|is_silence| VadContext { is_silence })
}

fn number(refusal: Result<(), Refusal>) -> (u32, Option<usize>) {
    refusal.map_or_else(
        |refusal| (refusal.number(), refusal.place()),
        |()| (0, None),
    )
}

/// The port, the original and the judge on the same sound.
struct Sides {
    port: Filter,
    original: original::DcHighPassFilter,
    judge: State,
}

impl Sides {
    /// `None` where the formulas miss 24's ranges, which the port has to notice.
    fn open(config: PreprocessingConfig) -> Option<Sides> {
        let original = original::DcHighPassFilter::new(config.for_original())
            .expect("the original has no refusal 24");
        let coefficients = config.coefficients();
        let port = match (judge::opening(config, coefficients), Filter::new(config)) {
            (0, Ok(port)) => port,
            (24, Err(refusal)) if refusal.number() == 24 => return None,
            (expected, answer) => panic!("{config:?}: {answer:?}, expected {expected}"),
        };
        let judge = judge::opened(config, coefficients);
        assert_eq!(port.state(), judge, "{config:?}");
        Some(Sides {
            port,
            original,
            judge,
        })
    }

    fn block(&mut self, seen: &mut Seen, samples: &[f32], is_silence: Option<bool>, rest: usize) {
        let len = samples.len();
        let mut output = old(len + rest);
        let answer = self.port.process(samples, context(is_silence), &mut output);
        assert_eq!(answer, Ok(()), "{:?}", self.judge);
        assert_eq!(
            bits(&output[len..]),
            bits(&old(len + rest)[len..]),
            "past the block"
        );

        let label = is_silence.map(|is_silence| original::VadContext { is_silence });
        let original = self.original.process(samples, label).expect("infallible");
        let judged = judge::process(self.judge, samples, is_silence);
        assert_eq!(bits(&judged.output), bits(&original), "judge and original");
        assert_eq!(
            bits(&output[..len]),
            bits(&original),
            "{:?}, {samples:?}",
            self.judge
        );
        self.judge = judged.end.ok().expect("no overflow");
        self.same();

        seen[Count::Calls] += 1;
        seen[Count::Samples] += len as u64;
        seen[Count::FullScale] +=
            samples.iter().filter(|sample| sample.abs() == FULL).count() as u64;
        for &sample in &original {
            if sample.is_subnormal() {
                seen[Count::Subnormal] += 1;
            } else if sample == 0.0 {
                let minus = sample.is_sign_negative();
                seen[if minus {
                    Count::MinusZero
                } else {
                    Count::PlusZero
                }] += 1;
            }
        }
        let bias = self.port.dc_bias();
        seen.count(Count::BiasMinusZero, bias.to_bits() == 1 << 31);
        seen.count(Count::BiasSubnormal, bias.is_subnormal());
        seen.count(Count::BiasNormal, bias.is_normal());
    }

    fn same(&self) {
        assert_eq!(self.port.state(), self.judge);
        assert_eq!(
            self.port.dc_bias().to_bits(),
            self.original.dc_bias().to_bits()
        );
    }

    fn reset(&mut self, seen: &mut Seen) {
        self.port.reset();
        self.original.reset();
        self.judge = judge::reset(self.judge);
        self.same();
        seen[Count::Resets] += 1;
    }

    fn restore(&mut self, seen: &mut Seen) {
        self.port = Filter::from_state(self.port.state()).expect("its own state");
        seen[Count::Restored] += 1;
    }

    /// A call that is refused leaves everything as it was; the original is not called. Where several rules are broken, the first in 01's order counts.
    fn refused(&mut self, seen: &mut Seen, random: &mut Random) {
        let (too_long, too_short) = (random.one_in(3), random.one_in(2));
        let len = match too_long {
            true if random.one_in(2) => LONGEST + 1,
            true => LONGEST + random.within(1, 600) as usize,
            false => random.within(1, LONGEST as i32) as usize,
        };
        let mut samples = Sound::Speech.samples(random, len);
        let place = random.word() as usize % len;
        let bad = !(too_long || too_short) || random.one_in(2);
        if bad {
            samples[place] = random.filter_bad_sample();
            // Later ones do not count.
            if random.one_in(2) {
                let later = place + random.word() as usize % (len - place);
                samples[later] = random.filter_bad_sample();
            }
        }
        let room = match too_short {
            true if random.one_in(2) => len - 1,
            true => random.word() as usize % len,
            false => len + random.within(0, 40) as usize,
        };
        let (expected, count) = if too_long {
            ((15, None), Count::Refused15)
        } else if too_short {
            ((25, None), Count::Refused25)
        } else {
            ((16, Some(place)), Count::Refused16)
        };
        let mut output = old(room);
        let answer = self
            .port
            .process(&samples, context(random.label()), &mut output);
        assert_eq!(number(answer), expected, "{len} samples, room for {room}");
        assert_eq!(
            bits(&output),
            bits(&old(room)),
            "a refused call writes nothing"
        );
        self.same();
        seen[count] += 1;
    }
}

/// Settings at random and this sound, until so many samples were compared.
fn run(sound: Sound, seed: u64, samples: u64) -> Seen {
    let (mut seen, mut random) = (Seen::default(), Random::new(seed));
    while seen[Count::Samples] < samples {
        let Some(mut sides) = Sides::open(random.filter_config()) else {
            seen[Count::Missed] += 1;
            continue;
        };
        seen[Count::Settings] += 1;
        let cutting = Cutting::any(&mut random);
        let len = cutting.sound(&mut random);
        let all = sound.samples(&mut random, len);
        let one_label = random.one_in(3).then(|| random.label());
        let mut rest = &all[..];
        while !rest.is_empty() {
            let len = cutting.next(&mut random).min(rest.len());
            let (block, after) = rest.split_at(len);
            let is_silence = one_label.unwrap_or_else(|| random.label());
            let past = random.pick(&[0, 0, 1, 33]);
            sides.block(&mut seen, block, is_silence, past);
            rest = after;
            match random.within(0, 99) {
                0 => sides.reset(&mut seen),
                1..=5 => sides.restore(&mut seen),
                6..=10 => sides.refused(&mut seen, &mut random),
                _ => {}
            }
        }
    }
    seen
}

/// Fails unless the sound was what it is for.
fn assert_point(sound: Sound, seen: &Seen) {
    seen.say(&format!("filter, {sound:?}"));
    let samples = seen[Count::Samples];
    seen.assert_met(&[
        Count::Settings,
        Count::Resets,
        Count::Restored,
        Count::Refused15,
        Count::Refused16,
        Count::Refused25,
    ]);
    // Each count with n: at least one output, or sample, or call, in n must be like that.
    let calls = seen[Count::Calls];
    let wanted: &[(Count, u64, u64)] = match sound {
        Sound::Silence => &[(Count::PlusZero, samples, 1)],
        Sound::MinusZero => &[(Count::MinusZero, samples, 10)],
        Sound::Constant => &[
            (Count::BiasNormal, calls, 4),
            (Count::BiasSubnormal, calls, 100),
        ],
        Sound::Speech => &[(Count::BiasNormal, calls, 4)],
        Sound::Square => &[(Count::FullScale, samples, 1)],
        Sound::Noise => &[(Count::FullScale, samples, 20)],
        Sound::Subnormal => &[
            (Count::Subnormal, samples, 3),
            (Count::MinusZero, samples, 100),
            (Count::BiasMinusZero, calls, 1_000),
            (Count::BiasSubnormal, calls, 10),
        ],
        Sound::Impulse | Sound::Tail => &[
            (Count::Subnormal, samples, 50),
            (Count::PlusZero, samples, 50),
            (Count::MinusZero, samples, 100),
        ],
        Sound::Mixture => &[
            (Count::Subnormal, samples, 50),
            (Count::MinusZero, samples, 100),
            (Count::FullScale, samples, 50),
        ],
    };
    for &(count, of, n) in wanted {
        assert!(
            n * seen[count] >= of,
            "{sound:?} misses its point, {count:?}: {} of {of}",
            seen[count]
        );
    }
}

/// Samples of a kind in an ordinary run.
const SAMPLES: u64 = 1_500_000;

fn sound(sound: Sound) {
    assert_point(sound, &run(sound, sound as u64, SAMPLES));
}

#[test]
fn silence() {
    sound(Sound::Silence);
}

#[test]
fn minus_zero() {
    sound(Sound::MinusZero);
}

#[test]
fn constants() {
    sound(Sound::Constant);
}

#[test]
fn speech() {
    sound(Sound::Speech);
}

#[test]
fn square_waves() {
    sound(Sound::Square);
}

#[test]
fn noise() {
    sound(Sound::Noise);
}

#[test]
fn subnormals() {
    sound(Sound::Subnormal);
}

#[test]
fn impulses() {
    sound(Sound::Impulse);
}

#[test]
fn tails() {
    sound(Sound::Tail);
}

#[test]
fn mixtures() {
    sound(Sound::Mixture);
}

#[test]
fn the_defaults_are_the_originals() {
    let ours = PreprocessingConfig::default().for_original();
    let original = original::PreprocessingConfig::default();
    assert_eq!(format!("{ours:?}"), format!("{original:?}"));
}

/// The zero that Rust's sum starts from shows in the bias: from +0 it would be +0.
#[test]
fn sums_start_from_minus_zero() {
    let config = PreprocessingConfig {
        dc_bias_alpha: 0.4,
        enable_highpass: false,
        ..Default::default()
    };
    let mut sides = Sides::open(config).expect("24 accepts");
    for sample in [-f32::from_bits(1), 0.0, -0.0] {
        sides.block(&mut Seen::default(), &[sample], None, 0);
    }
    assert_eq!(sides.port.dc_bias().to_bits(), 1 << 31);
}

/// Without a context the second word of the label says nothing.
#[test]
fn no_context_is_no_label() {
    let mut random = Random::new(3);
    let mut moved = 0;
    for _ in 0..2_000 {
        let config = random.filter_config();
        let Ok(filter) = Filter::new(config) else {
            continue;
        };
        let samples = Sound::Speech.samples(&mut random, 64);
        let expected = judge::process(filter.state(), &samples, None);
        for is_silence in [false, true] {
            let (mut state, mut output) = (filter.state(), old(64));
            let answer = raw::filter_process(&mut state, &samples, false, is_silence, &mut output);
            assert_eq!(answer, 0);
            assert_eq!(Some(state), expected.end.as_ref().ok().copied());
            assert_eq!(bits(&output), bits(&expected.output));
            moved += u64::from(state[filter::BIAS] != 0);
        }
    }
    assert!(moved > 1_000, "{moved}");
}

counts! {
    /// What openings answered.
    Opening {
        Accepted: "accepted",
        By20: "refused by 20",
        By21: "refused by 21",
        By22: "refused by 22",
        By23: "refused by 23",
        By24: "refused by 24",
    }
}

impl Opening {
    fn of(refusal: u64) -> Opening {
        match refusal {
            0 => Opening::Accepted,
            20 => Opening::By20,
            21 => Opening::By21,
            22 => Opening::By22,
            23 => Opening::By23,
            24 => Opening::By24,
            _ => panic!("{refusal} at an opening"),
        }
    }
}

/// Where the formulas miss 24's ranges: the port refuses there, and nowhere else.
#[derive(Default)]
struct Misses {
    openings: Tally<Opening>,
    /// The lowest cutoff, and how many floats below half the rate any is at most.
    lowest: Option<f32>,
    farthest: u32,
    names: BTreeSet<String>,
}

impl Misses {
    fn scan(
        &mut self,
        rate: u32,
        highpass_order: HighpassOrder,
        cutoffs: impl Iterator<Item = f32>,
    ) {
        for cutoff in cutoffs {
            let config = PreprocessingConfig {
                highpass_cutoff_hz: cutoff,
                sample_rate_hz: rate,
                highpass_order,
                ..Default::default()
            };
            if Sides::open(config).is_some() {
                self.openings[Opening::Accepted] += 1;
                continue;
            }
            self.openings[Opening::By24] += 1;
            self.lowest = Some(self.lowest.map_or(cutoff, |lowest| lowest.min(cutoff)));
            let places = (rate as f32 / 2.0).to_bits() - cutoff.to_bits();
            self.farthest = self.farthest.max(places);
            for (stage, coefficients) in config.coefficients().into_iter().enumerate() {
                for n in judge::outside(coefficients) {
                    let name = format!("{} = {} of stage {}", NAMES[n], coefficients[n], stage + 1);
                    self.names.insert(name);
                }
            }
        }
    }

    /// How many openings there were.
    fn tried(&self) -> u64 {
        self.openings[Opening::Accepted] + self.openings[Opening::By24]
    }

    fn say(&self, what: &str) {
        self.openings.say(what);
        if let Some(lowest) = self.lowest {
            let names: Vec<_> = self.names.iter().map(String::as_str).collect();
            let (farthest, names) = (self.farthest, names.join(", "));
            println!(
                "{what}: the lowest {lowest} Hz, at most {farthest} floats below half the rate: {names}"
            );
        }
    }
}

const ORDERS: [HighpassOrder; 2] = [HighpassOrder::SecondOrder, HighpassOrder::FourthOrder];

#[test]
fn formulas_at_common_rates() {
    const LAST: u32 = 4_096;
    for rate in COMMON_RATES {
        for order in ORDERS {
            let half = rate as f32 / 2.0;
            let mut misses = Misses::default();
            let grid = (0..LAST).map(|n| 20.0 * (half / 20.0).powf(n as f32 / LAST as f32));
            misses.scan(rate, order, grid);
            misses.scan(rate, order, (1..=LAST).map(|places| below(half, places)));
            misses.say(&format!("openings, {rate} Hz, {order:?}"));
            assert_eq!(misses.tried(), u64::from(2 * LAST));
        }
    }
}

/// At some rates the float below half the rate gives an angle that rounds to the f32 above π. Its sine is negative, and a1 and a2 pass their limits.
#[test]
fn formulas_at_every_rate() {
    let (mut misses, mut rates) = (Misses::default(), 0);
    for rate in 8_000..=48_000 {
        let before = misses.openings[Opening::By24];
        for order in ORDERS {
            let half = rate as f32 / 2.0;
            misses.scan(rate, order, (1..=4).map(|places| below(half, places)));
        }
        rates += u64::from(misses.openings[Opening::By24] > before);
    }
    misses.say(&format!("openings, refused at {rates} of 40001 rates"));
    assert_eq!(misses.tried(), 40_001 * 2 * 4);
    let openings = &misses.openings;
    assert!(rates > 1_000 && openings[Opening::Accepted] > openings[Opening::By24]);
}

/// Room past the state, which has to stay.
const PAST: [u32; 3] = [0xaaaa_aaaa, 0xbbbb_bbbb, 0xcccc_cccc];

/// Holds a state and the words past it to what they should be. A NaN among the coefficients of a stage that is not in use stays a NaN; nothing says which.
fn assert_settled(words: &[u32], expected: State) {
    let (state, past) = words.split_at(Filter::STATE_WORDS);
    assert_eq!(past, PAST);
    for (n, (&word, expected)) in state.iter().zip(expected).enumerate() {
        let nan = f32::from_bits(expected).is_nan() && f32::from_bits(word).is_nan();
        assert!(
            word == expected || (n >= STAGES[1] && nan),
            "word {n} of {state:?}"
        );
    }
}

/// Opens in a longer slice full of old words, and holds all of it to 01's words.
fn opens(config: PreprocessingConfig, coefficients: [[f32; 5]; 2]) -> u64 {
    let expected = judge::opening(config, coefficients);
    let mut words = [[0x5555_5555; Filter::STATE_WORDS].as_slice(), &PAST].concat();
    let answer = raw::filter_open(&config.into(), coefficients.as_flattened(), &mut words);
    assert_eq!(answer, expected, "{config:?}, {coefficients:?}");
    let state = match expected {
        0 => judge::opened(config, coefficients),
        _ => [0; Filter::STATE_WORDS],
    };
    assert_settled(&words, state);
    assert_eq!(
        Filter::with_coefficients(config, coefficients)
            .map_or_else(|refusal| refusal.number(), |_| 0),
        expected as u32
    );
    expected
}

/// A number, the next above and the next below.
fn around(x: f32) -> [f32; 3] {
    [x, x.next_up(), x.next_down()]
}

#[test]
fn openings() {
    let mut met = Tally::default();
    let default = PreprocessingConfig::default();
    let good = default.coefficients();
    let wrong = [[0.5, -1.0, 0.5, f32::NAN, 0.5], good[1]];
    let special = [
        f32::NAN,
        f32::INFINITY,
        f32::NEG_INFINITY,
        0.0,
        -0.0,
        -1.0,
        f32::MAX,
    ];
    let rates = [
        0,
        1,
        7_999,
        8_000,
        8_001,
        16_000,
        47_999,
        48_000,
        48_001,
        u32::MAX,
    ];
    let alphas: Vec<f32> = [0.0, 0.95, 1.0]
        .into_iter()
        .flat_map(around)
        .chain(special)
        .collect();
    for rate in rates {
        let half = rate as f32 / 2.0;
        let cutoffs = [20.0, 80.0, half]
            .into_iter()
            .flat_map(around)
            .chain(special);
        for cutoff in cutoffs {
            for &alpha in &alphas {
                for coefficients in [good, wrong] {
                    let config = PreprocessingConfig {
                        highpass_cutoff_hz: cutoff,
                        sample_rate_hz: rate,
                        dc_bias_alpha: alpha,
                        ..default
                    };
                    let refusal = opens(config, coefficients);
                    met[Opening::of(refusal)] += 1;
                    // The original checks the same but for the coefficients, and has a wider domain of rates.
                    if refusal != 20 {
                        let valid = config.for_original().validate().is_ok();
                        assert_eq!(valid, matches!(refusal, 0 | 24), "{config:?}");
                    }
                }
            }
        }
    }
    met.say("openings");
    met.assert_met(&[
        Opening::Accepted,
        Opening::By20,
        Opening::By21,
        Opening::By22,
        Opening::By23,
        Opening::By24,
    ]);
}

/// Each limit of 24 with the floats beside it, in each stage, in use and not, at opening and in a state.
#[test]
fn limits_of_coefficients() {
    let mut met = Tally::default();
    let mut random = Random::new(4);
    let special = [f32::NAN, f32::INFINITY, f32::NEG_INFINITY, 0.0, -0.0];
    for highpass_order in ORDERS {
        for (stage, at) in STAGES.into_iter().enumerate() {
            for (n, (low, high)) in RANGES.into_iter().enumerate() {
                let values = [low, high].into_iter().flat_map(around).chain(special);
                for value in values {
                    let config = PreprocessingConfig {
                        highpass_order,
                        enable_dc_removal: random.one_in(2),
                        enable_highpass: random.one_in(2),
                        ..Default::default()
                    };
                    let mut coefficients = config.coefficients();
                    let mut state = judge::opened(config, coefficients);
                    coefficients[stage][n] = value;
                    state[at + n] = value.to_bits();
                    let refusal = opens(config, coefficients);
                    met[Opening::of(refusal)] += 1;
                    assert_eq!(answers(state, &[0.5, -0.25], Some(false)), refusal == 0);
                }
            }
        }
    }
    met.say("openings, limits of 24");
    let (accepted, refused) = (met[Opening::Accepted], met[Opening::By24]);
    assert_eq!(accepted + refused, 2 * 2 * 5 * 11);
    assert!(accepted > 100 && refused > 50);
}

#[test]
fn short_slices() {
    let config = PreprocessingConfig::default();
    let coefficients = config.coefficients();
    let state = judge::opened(config, coefficients);
    for len in 0..Filter::STATE_WORDS {
        let mut words = state[..len].to_vec();
        // Even where the settings are wrong too.
        for config in [
            config,
            PreprocessingConfig {
                sample_rate_hz: 0,
                ..config
            },
        ] {
            assert_eq!(
                raw::filter_open(&config.into(), coefficients.as_flattened(), &mut words),
                27
            );
        }
        let mut output = old(4);
        assert_eq!(
            raw::filter_process(&mut words, &[0.5; 2], false, false, &mut output),
            27
        );
        assert_eq!(
            raw::filter_process(&mut words, &[], false, false, &mut []),
            27
        );
        assert_eq!(raw::filter_reset(&mut words), 27);
        assert_eq!(raw::filter_bias(&words), 27);
        assert_eq!(words, state[..len]);
        assert_eq!(bits(&output), bits(&old(4)));
    }
    for len in 0..10 {
        let mut words = state;
        let few = &coefficients.as_flattened()[..len];
        assert_eq!(raw::filter_open(&config.into(), few, &mut words), 24);
        assert_eq!(words, [0; Filter::STATE_WORDS]);
    }
}

/// Hands a state and a block that is in the domain to every function, and holds the answers to the judge's; whether the state is sound.
fn answers(state: State, samples: &[f32], is_silence: Option<bool>) -> bool {
    let mut words = [state.as_slice(), &PAST].concat();
    let given = words.clone();
    let mut output = old(samples.len() + 2);
    let (has_context, silence) = (is_silence.is_some(), is_silence == Some(true));
    let sound = !judge::malformed(&state);

    let bias = if sound {
        u64::from(state[filter::BIAS]) << 8
    } else {
        27
    };
    assert_eq!(raw::filter_bias(&words), bias, "{state:?}");
    assert_eq!(words, given);
    assert_eq!(Filter::from_state(state).is_ok(), sound);

    if sound {
        assert_eq!(raw::filter_reset(&mut words), 0, "{state:?}");
        assert_settled(&words, judge::reset(state));
        words.copy_from_slice(&given);
        processes(state, samples, is_silence);
    } else {
        assert_eq!(raw::filter_reset(&mut words), 27, "{state:?}");
        // 27 comes before every other refusal of this call.
        let longest = [f32::NAN; LONGEST + 1];
        for (samples, room) in [(samples, output.len()), (&[], 0), (&longest, 1)] {
            let output = &mut output[..room];
            let answer = raw::filter_process(&mut words, samples, has_context, silence, output);
            assert_eq!(answer, 27, "{state:?}");
        }
        assert_eq!(words, given);
        assert_eq!(bits(&output), bits(&old(samples.len() + 2)));
    }
    sound
}

/// Holds a block from a sound state to the judge, overflows included; where it overflows.
fn processes(state: State, samples: &[f32], is_silence: Option<bool>) -> Option<judge::Overflow> {
    let mut words = [state.as_slice(), &PAST].concat();
    let given = words.clone();
    let (len, room) = (samples.len(), samples.len() + 2);
    let mut output = old(room);
    let (has_context, silence) = (is_silence.is_some(), is_silence == Some(true));
    let answer = raw::filter_process(&mut words, samples, has_context, silence, &mut output);

    let judged = judge::process(state, samples, is_silence);
    let mut expected = old(room);
    expected[..judged.output.len()].copy_from_slice(&judged.output);
    match judged.end {
        Ok(after) => {
            assert_eq!(answer, 0, "{state:?}, {samples:?}");
            assert_settled(&words, after);
            assert_eq!(bits(&output), bits(&expected), "{state:?}, {samples:?}");
            None
        }
        Err(overflow) => {
            expected[overflow.place..len].fill(0.0);
            let place = overflow.place as u64;
            assert_eq!(answer, 26 | place << 8, "{state:?}, {samples:?}");
            assert_eq!(words, given, "after 26 the state is the one given");
            assert_eq!(bits(&output), bits(&expected), "{state:?}, {samples:?}");
            Some(overflow)
        }
    }
}

/// Each fused product of the filter on a tie that a far smaller term settles. Fusing in f64 and narrowing would round it the other way, and ordinary
/// sound hardly ever shows that.
#[test]
fn fused_products_are_rounded_once() {
    let a = 1.0 + power(-12);
    let once = 1.0 + power(-11) + power(-23);
    let narrowed = (f64::from(a) * f64::from(a) + f64::from(power(-60))) as f32;
    assert_eq!(narrowed, 1.0 + power(-11));

    // The coefficients and the memory of a stage, the sample, and what comes out.
    let inner = [0.0, -a, power(-30), 0.0, 0.0, a, -power(-30), 0.0, 0.0];
    let outer = [
        a / 2.0,
        0.0,
        power(-30),
        0.0,
        0.0,
        0.0,
        power(-31),
        0.0,
        0.0,
    ];
    let feedback = [0.0, 0.0, 0.0, a, power(-30), 0.0, 0.0, a, power(-30)];
    let pass = [1.0, 0.0, 0.0, 0.0, 0.0, 0.0, 0.0, 0.0, 0.0];
    let cases = [
        (inner, 0.0, -once),
        (outer, a, once / 2.0),
        (feedback, 0.0, -once),
    ];
    let config = PreprocessingConfig {
        enable_dc_removal: false,
        ..Default::default()
    };
    for (tie, sample, expected) in cases {
        for stages in [[tie, pass], [pass, tie]] {
            let mut state = judge::opened(config, [[0.0; 5]; 2]);
            for (at, words) in STAGES.into_iter().zip(stages) {
                state[at..][..stage::LENGTH].copy_from_slice(&words.map(f32::to_bits));
            }
            assert!(processes(state, &[sample], None).is_none());
            let (mut filter, mut output) = (Filter::from_state(state).expect("sound"), [0.0]);
            assert_eq!(filter.process(&[sample], None, &mut output), Ok(()));
            assert_eq!(output, [expected]);
        }
    }

    let config = PreprocessingConfig {
        dc_bias_alpha: a / 2.0,
        enable_highpass: false,
        ..Default::default()
    };
    let mut state = judge::opened(config, config.coefficients());
    state[filter::BIAS] = a.to_bits();
    let mut filter = Filter::from_state(state).expect("sound");
    assert_eq!(filter.process(&[power(-60)], None, &mut [0.0]), Ok(()));
    assert_eq!(filter.dc_bias(), once / 2.0);
}

/// Coefficients anywhere in 24's ranges, and often at their ends.
fn any_coefficients(random: &mut Random) -> [[f32; 5]; 2] {
    [(); 2].map(|()| {
        RANGES.map(|(low, high)| match random.within(0, 3) {
            0 => low,
            1 => high,
            _ => low + (high - low) * random.uniform().abs(),
        })
    })
}

counts! {
    /// Blocks from states that may overflow.
    Overflowed {
        Blocks: "blocks",
        FirstInner: "overflows of the first stage's inner sum",
        FirstOuter: "overflows of the first stage's outer sum",
        FirstFeedback: "overflows of the first stage's feedback",
        FirstOutput: "overflows of the first stage's output",
        SecondInner: "overflows of the second stage's inner sum",
        SecondOuter: "overflows of the second stage's outer sum",
        SecondFeedback: "overflows of the second stage's feedback",
        SecondOutput: "overflows of the second stage's output",
        AtOnce: "at the first sample",
        Later: "at a later one",
        /// It has to be the old one again.
        Moved: "with a bias that had moved",
    }
}

/// By stage and operation.
const OVERFLOWS: [[Overflowed; 4]; 2] = [
    [
        Overflowed::FirstInner,
        Overflowed::FirstOuter,
        Overflowed::FirstFeedback,
        Overflowed::FirstOutput,
    ],
    [
        Overflowed::SecondInner,
        Overflowed::SecondOuter,
        Overflowed::SecondFeedback,
        Overflowed::SecondOutput,
    ],
];

type Overflows = Tally<Overflowed>;

impl Overflows {
    fn process(&mut self, state: State, samples: &[f32], is_silence: Option<bool>) -> bool {
        self[Overflowed::Blocks] += 1;
        let Some(overflow) = processes(state, samples, is_silence) else {
            return false;
        };
        assert_ne!(overflow.operation, Operation::Other, "{state:?}");
        self[OVERFLOWS[overflow.stage][overflow.operation as usize]] += 1;
        self.count(Overflowed::AtOnce, overflow.place == 0);
        self.count(Overflowed::Later, overflow.place > 0);
        let settled = judge::process(no_highpass(state), samples, is_silence);
        let bias = settled.end.ok().expect("a bias never overflows")[filter::BIAS];
        self.count(Overflowed::Moved, bias != state[filter::BIAS]);
        true
    }
}

fn no_highpass(mut state: State) -> State {
    state[filter::ENABLE_HIGHPASS] = 0;
    state
}

/// Memories so large that an operation overflows, in every way that the ranges allow.
#[test]
fn overflows_from_memory() {
    let (mut random, mut overflows) = (Random::new(5), Overflows::default());
    let mut overflowed = 0;
    for _ in 0..100_000 {
        let config = random.filter_config();
        let coefficients = match random.one_in(4) {
            true => config.coefficients(),
            false => any_coefficients(&mut random),
        };
        if judge::opening(config, coefficients) != 0 {
            continue;
        }
        let mut state = judge::opened(config, coefficients);
        let (low, high) = random.pick(&[(126, 127), (120, 127), (-20, 127)]);
        for at in judge::remembered() {
            let huge = at != filter::BIAS || random.one_in(4);
            let memory = if huge {
                random.float(low, high)
            } else {
                random.uniform()
            };
            state[at] = memory.to_bits();
        }
        let len = random.within(1, 24) as usize;
        let samples = Sound::Noise.samples(&mut random, len);
        overflowed += u64::from(overflows.process(state, &samples, random.label()));
    }
    overflows.say("overflows from memory");
    assert!(overflowed > 10_000 && overflows[Overflowed::Blocks] - overflowed > 10_000);
    for count in [Overflowed::AtOnce, Overflowed::Later, Overflowed::Moved] {
        assert!(overflows[count] > 1_000, "{count:?}: {overflows}");
    }
    for &count in OVERFLOWS.as_flattened() {
        assert!(overflows[count] > 100, "{count:?}: {overflows}");
    }
}

/// Coefficients with which the filter grows from ordinary sound until it overflows.
#[test]
fn overflows_by_growth() {
    let (mut random, mut overflows) = (Random::new(6), Overflows::default());
    let mut overflowed = 0;
    for _ in 0..300 {
        let config = PreprocessingConfig {
            enable_highpass: true,
            ..random.filter_config()
        };
        let mut coefficients = any_coefficients(&mut random);
        // Poles at -1 ± √2 or their mirror: each sample multiplies by 2.4.
        coefficients[random.within(0, 1) as usize] =
            [1.0, -1.0, 0.5, random.pick(&[2.0, -2.0]), -1.0];
        let mut filter = Filter::with_coefficients(config, coefficients).expect("in their ranges");
        for _ in 0..40 {
            let len = random.within(0, 60) as usize;
            let samples = Sound::Speech.samples(&mut random, len);
            let is_silence = random.label();
            if overflows.process(filter.state(), &samples, is_silence) {
                overflowed += 1;
                // Asked again through the type, with the sentence for a person.
                let mut output = old(len);
                let refusal = filter
                    .process(&samples, context(is_silence), &mut output)
                    .unwrap_err();
                let place = refusal.place().expect("26 has one");
                assert_eq!(refusal.number(), 26);
                let sentence =
                    format!("the filter overflows, at sample {place} of the block (refusal 26)");
                assert_eq!(refusal.to_string(), sentence);
                break;
            }
            filter
                .process(&samples, context(is_silence), &mut old(len))
                .expect("it did not overflow");
        }
    }
    overflows.say("overflows by growth");
    assert!(overflowed > 100 && overflows[Overflowed::Later] > 100);
}

counts! {
    /// States of any content.
    Met {
        Malformed: "malformed states",
        Sound: "sound states",
    }
}

type States = Tally<Met>;

/// Sound states, each with one word that breaks a rule.
#[test]
fn malformed_states() {
    let mut random = Random::new(8);
    let not_finite = [
        0x7f80_0000,
        0xff80_0000,
        0x7fc0_0000,
        0x7f80_0001,
        0xffff_ffff,
    ];
    let mut met = States::default();
    let mut broken = [0; Filter::STATE_WORDS];
    for _ in 0..200 {
        let config = random.filter_config();
        let coefficients = config.coefficients();
        if judge::opening(config, coefficients) != 0 {
            continue;
        }
        let mut state = judge::opened(config, coefficients);
        for at in judge::remembered() {
            state[at] = random.float(-149, 15).to_bits();
        }
        let samples = Sound::Speech.samples(&mut random, 5);
        assert!(answers(state, &samples, random.label()));
        met[Met::Sound] += 1;
        let half = config.sample_rate_hz as f32 / 2.0;
        let settings: [(usize, [u32; 5]); 3] = [
            (
                filter::HIGHPASS_CUTOFF_HZ,
                [0.0, 20f32.next_down(), half, half.next_up(), -80.0].map(f32::to_bits),
            ),
            (
                filter::SAMPLE_RATE_HZ,
                [0, 7_999, 48_001, u32::MAX, 16_000f32.to_bits()],
            ),
            (
                filter::DC_BIAS_ALPHA,
                [0.0, -0.0, 1.0, 1f32.next_up(), -0.5].map(f32::to_bits),
            ),
        ];
        let mut wrong = Vec::new();
        for (at, words) in settings {
            wrong.extend(words.map(|word| (at, word)));
        }
        for at in [filter::HIGHPASS_CUTOFF_HZ, filter::DC_BIAS_ALPHA]
            .into_iter()
            .chain(judge::remembered())
        {
            wrong.extend(not_finite.map(|word| (at, word)));
        }
        for at in FLAGS {
            let any = (random.word() as u32).max(2);
            wrong.extend([2, 3, 256, 1 << 31, u32::MAX, any].map(|word| (at, word)));
        }
        for &at in &STAGES[..1 + state[filter::FOURTH_ORDER] as usize] {
            for (n, (low, high)) in RANGES.into_iter().enumerate() {
                wrong.extend([low.next_down(), high.next_up()].map(|x| (at + n, x.to_bits())));
                wrong.extend(not_finite.map(|word| (at + n, word)));
            }
        }
        for (at, word) in wrong {
            let mut state = state;
            state[at] = word;
            assert!(
                !answers(state, &samples, random.label()),
                "word {at}: {word:#x}"
            );
            met[Met::Malformed] += 1;
            broken[at] += 1;
        }
    }
    met.say("states, each word broken alone");
    assert!(met[Met::Sound] > 100 && broken.iter().all(|&count| count > 100));
    assert!(!answers([0; Filter::STATE_WORDS], &[0.5], None));
}

/// Words at random, all or a few: answered, and by the judge's words.
fn random_words(seed: u64, cases: u64) -> States {
    let (mut random, mut met) = (Random::new(seed), States::default());
    for _ in 0..cases {
        let mut state = [(); Filter::STATE_WORDS].map(|()| random.word() as u32);
        if !random.one_in(4) {
            state = judge::opened(random.filter_config(), any_coefficients(&mut random));
            for _ in 0..random.within(1, 3) {
                let at = random.within(0, Filter::STATE_WORDS as i32 - 1) as usize;
                state[at] = match random.within(0, 2) {
                    0 => random.word() as u32,
                    1 => random.pick(&[0, 1, 2, 1 << 31, 0x7f80_0000, 0x7fc0_0000, 0x3f80_0000]),
                    _ => random.float(-149, 127).to_bits(),
                };
            }
        }
        let len = random.within(0, 3) as usize;
        let samples = Sound::Noise.samples(&mut random, len);
        let sound = answers(state, &samples, random.label());
        met[if sound { Met::Sound } else { Met::Malformed }] += 1;
    }
    met
}

#[test]
fn states_at_random() {
    let met = random_words(9, 300_000);
    met.say("states at random");
    assert!(met[Met::Malformed] > 100_000 && met[Met::Sound] > 30_000);
}

/// By kind of sound.
type Kinds = Each<Count, { Sound::ALL.len() }>;

#[test]
#[ignore = "minutes"]
fn long_sounds() {
    const PART: u64 = 1_000_000;
    const PARTS: u64 = 60;
    let kinds = Sound::ALL.len() as u64;
    let (seen, time) = long("sounds", kinds * PARTS, |seen: &mut Kinds, part| {
        let kind = (part % kinds) as usize;
        // Seeds other than the ordinary run's.
        seen.0[kind] += &run(Sound::ALL[kind], Random::new(part).word(), PART);
    });
    for (sound, seen) in Sound::ALL.into_iter().zip(&seen.0) {
        assert_point(sound, seen);
    }
    let all = seen.all();
    assert!(all[Count::Samples] >= kinds * PARTS * PART);
    all.say_after("filter", time);
}

#[test]
#[ignore = "a minute"]
fn long_states() {
    let (met, time) = long("states", 400, |met: &mut States, part| {
        *met += &random_words(Random::new(part).word(), 50_000);
    });
    assert_eq!(met[Met::Malformed] + met[Met::Sound], 20_000_000);
    met.say_after("states at random", time);
}
