//! The compiled checks of the settings, and the numbers that follow from them, against the original's `validate`, `frame_length_samples` and
//! `hop_length_samples`, and against the original's expressions for what it keeps to itself.
//!
//! The long run: `tools/host test --release --test all -- --ignored --nocapture settings::`.

use std::time::Duration;

use fallowcart::{VadConfig, raw};

use crate::common::for_original::ForOriginal;
use crate::common::long::long;
use crate::common::original::{padding_samples, warmup_frames};
use crate::common::random::Random;
use crate::common::tally::{Each, Tally, counts};

const SECOND: u64 = 1_000_000_000;

/// The latest sample that has a time.
const LAST: u64 = 1 << 40;

/// The number that stands for the field which the original refuses, or 0. Its message starts with the field's name.
fn original_refusal(config: &speech_prep::VadConfig) -> u32 {
    let Err(error) = config.validate() else {
        return 0;
    };
    let message = error.to_string();
    match message.split(' ').next() {
        Some("sample_rate") => 1,
        Some("frame_duration") => 2,
        Some("frame_overlap") => 3,
        Some("pre_emphasis") => 4,
        Some("release_ratio") => 5,
        Some("activation_ratio") => 6,
        Some("min_speech_energy") => 7,
        Some("noise_smoothing") => 8,
        Some("energy_floor") => 9,
        Some("min_speech_frames") => 10,
        _ => panic!("the original's refusal: {message}"),
    }
}

/// `samples_to_duration` in the original, after the stream's start.
fn time_of_sample(stream_start_time: u64, sample_rate: u32, sample: u64) -> u128 {
    let rate = u128::from(sample_rate);
    let nanos = (u128::from(sample) * u128::from(SECOND) + rate / 2) / rate;
    u128::from(stream_start_time) + nanos
}

counts! {
    /// Settings with one refusal, or accepted.
    Met {
        Settings: "settings",
        /// By the port alone.
        Narrower: "that the port refuses and the original accepts",
    }
}

/// By the port's refusal, 0 to 13.
type Seen = Each<Met, 14>;

impl Seen {
    /// Compares one configuration, and what follows from it where it is accepted.
    fn compare(&mut self, config: &VadConfig, sample: u64) {
        let original = config.for_original();
        let refused = original_refusal(&original);
        let port = config
            .validate()
            .map_or_else(|refusal| refusal.number(), |()| 0);

        // The domain of 01 is narrower: of rates and durations, and once the original accepts, of what they make.
        let rate = config.sample_rate;
        let expected = if !(8_000..=48_000).contains(&rate) {
            1
        } else if !(1..=u128::from(SECOND)).contains(&config.frame_duration.as_nanos()) {
            2
        } else if refused != 0 {
            refused
        } else {
            let length = original.frame_length_samples().expect("a second at most");
            let hop = original.hop_length_samples().expect("a second at most");
            let too_many = |count| count > 10_000;
            if length > 2_048 {
                11
            } else if warmup_frames(hop, rate) > 300 {
                12
            } else if config.speech_padding > Duration::from_secs(1)
                || too_many(config.hangover_frames)
                || too_many(config.min_speech_frames)
                || config.stream_start_time >= 1 << 63
            {
                13
            } else {
                0
            }
        };
        assert_eq!(port, expected, "{config:?}");
        let seen = &mut self.0[port as usize];
        seen[Met::Settings] += 1;
        seen.count(Met::Narrower, port != 0 && refused == 0);

        if port != 0 {
            assert!(config.frame_length_samples().is_err() && config.padding_samples().is_err());
            assert!(config.hop_length_samples().is_err() && config.warmup_frames().is_err());
            assert_eq!(config.time_of_sample(sample), None);
            return;
        }
        let hop = original.hop_length_samples().expect("accepted");
        assert_eq!(
            config.frame_length_samples().ok(),
            original.frame_length_samples().ok(),
            "{config:?}"
        );
        assert_eq!(config.hop_length_samples(), Ok(hop), "{config:?}");
        assert_eq!(
            config.warmup_frames(),
            Ok(warmup_frames(hop, rate)),
            "{config:?}"
        );
        let padding = padding_samples(config.speech_padding, rate);
        assert_eq!(config.padding_samples(), Ok(padding), "{config:?}");
        let time = time_of_sample(config.stream_start_time, rate, sample);
        let time = (sample <= LAST).then(|| u64::try_from(time).expect("below 2^63 + 2^57"));
        assert_eq!(
            config.time_of_sample(sample),
            time,
            "sample {sample} of {config:?}"
        );
    }

    fn run(seed: u64, cases: u64) -> Seen {
        let (mut seen, mut random) = (Seen::default(), Random::new(seed));
        for _ in 0..cases {
            let config = random.settings();
            let sample = random.sample();
            seen.compare(&config, sample);
        }
        seen
    }

    /// Fails unless each number was met, the narrower domain's by settings that the original accepts.
    fn assert_full(&self, cases: u64) {
        assert_eq!(self.all()[Met::Settings], cases);
        for (number, seen) in self.0.iter().enumerate() {
            assert!(1_000 * seen[Met::Settings] > cases, "{number}: {seen}");
            let (narrower, allowed) = (seen[Met::Narrower], matches!(number, 1 | 2 | 11..=13));
            assert_eq!(1_000 * narrower > cases, allowed, "{number}: {seen}");
            assert!(allowed || narrower == 0, "{number}: {seen}");
            match number {
                0 => seen.say("settings, accepted"),
                _ => seen.say(&format!("settings, refused by {number}")),
            }
        }
    }
}

impl Random {
    /// Numbers that some setting has a limit at, those beside them, and any.
    fn limit(&mut self) -> f32 {
        let size = match self.within(0, 5) {
            0 => self.pick(&[0.0, f32::from_bits(1), f32::MIN_POSITIVE, f32::MAX]),
            1 => self.pick(&[1.0, 1f32.next_down(), 1f32.next_up()]),
            2 => self.pick(&[f32::NAN, f32::INFINITY]),
            3 => f32::from_bits(self.word() as u32),
            _ => self.share(),
        };
        if self.one_in(4) { -size } else { size }
    }

    fn rate(&mut self) -> u32 {
        match self.within(0, 3) {
            0 => self.pick(&[
                8_000, 11_025, 16_000, 22_050, 24_000, 32_000, 44_100, 48_000,
            ]),
            _ => self.within(8_000, 48_000) as u32,
        }
    }

    /// Nanoseconds, and where they can say more than a word of 64 digits holds, some whose last 64 are an ordinary duration.
    fn duration(&mut self) -> Duration {
        let ordinary = Duration::from_nanos(self.word() % 50_000_000);
        match self.within(0, 4) {
            0 => Duration::from_nanos(self.pick(&[0, 1, SECOND - 1, SECOND, SECOND + 1, u64::MAX])),
            1 => Duration::from_nanos(u64::MAX) + Duration::from_nanos(1) + ordinary,
            2 => Duration::MAX,
            3 => Duration::from_nanos(self.word() % (2 * SECOND)),
            _ => Duration::from_nanos(self.word() >> self.within(0, 63)),
        }
    }

    /// A duration that is a whole number of samples and a half, or beside one.
    fn half_sample(&mut self, rate: u32) -> Duration {
        let whole = self.word() % 2_100;
        let nanos = (2 * whole + 1) * SECOND / 2 / u64::from(rate);
        Duration::from_nanos((nanos + self.word() % 3).saturating_sub(1))
    }

    /// A frame of 2,047 to 2,049 samples.
    fn longest_frame(&mut self, rate: u32) -> Duration {
        let nanos = self.within(4_093, 4_099) as u64 * SECOND / 2 / u64::from(rate);
        Duration::from_nanos(nanos + self.word() % 3)
    }

    fn count(&mut self) -> usize {
        match self.within(0, 2) {
            0 => self.pick(&[0, 1, usize::MAX, 1 << 32]),
            1 => self.within(9_998, 10_002) as usize,
            _ => (self.word() >> self.within(0, 63)) as usize,
        }
    }

    fn start(&mut self) -> u64 {
        match self.within(0, 1) {
            0 => self.pick(&[0, (1 << 63) - 1, 1 << 63, u64::MAX]),
            _ => self.word(),
        }
    }

    fn sample(&mut self) -> u64 {
        match self.within(0, 3) {
            0 => self.pick(&[0, 1, LAST - 1, LAST, LAST + 1, u64::MAX]),
            _ => self.word() >> self.within(23, 63),
        }
    }

    /// Settings that are accepted, mostly, and then up to three changes.
    fn settings(&mut self) -> VadConfig {
        let rate = self.rate();
        let release = 1.0 + 3.0 * self.share();
        let mut config = VadConfig {
            sample_rate: rate,
            frame_duration: match self.within(0, 1) {
                0 => Duration::from_nanos(2_000_000 + self.word() % 40_000_000),
                _ => self.half_sample(rate),
            },
            frame_overlap: self.share() * 0.9,
            pre_emphasis: self.one_in(2).then(|| self.share()),
            activation_ratio: release + self.share(),
            release_ratio: release,
            min_speech_energy: self.share(),
            noise_smoothing: self.share(),
            energy_floor: self.share() + 1e-9,
            hangover_frames: self.within(0, 10_000) as usize,
            speech_padding: Duration::from_nanos(self.word() % (SECOND + 1)),
            min_speech_frames: self.within(1, 10_000) as usize,
            stream_start_time: self.word() >> 1,
        };
        for _ in 0..self.within(0, 3) {
            match self.within(0, 14) {
                0 => {
                    config.sample_rate = self.pick(&[0, 1, 7_999, 8_000, 48_000, 48_001, u32::MAX])
                }
                1 => config.sample_rate = self.word() as u32 >> self.within(0, 31),
                2 => config.frame_duration = self.duration(),
                3 => config.frame_duration = self.longest_frame(rate),
                4 => config.frame_overlap = self.limit(),
                5 => config.pre_emphasis = Some(self.limit()),
                6 => {
                    let release = config.release_ratio;
                    config.activation_ratio =
                        self.pick(&[release, release.next_down(), release.next_up()]);
                }
                7 => config.activation_ratio = self.limit(),
                8 => config.release_ratio = self.limit(),
                9 => config.min_speech_energy = self.limit(),
                10 => config.noise_smoothing = self.limit(),
                11 => config.energy_floor = self.limit(),
                12 => config.hangover_frames = self.count(),
                13 => config.min_speech_frames = self.count(),
                _ => match self.within(0, 1) {
                    0 => config.speech_padding = self.duration(),
                    _ => config.stream_start_time = self.start(),
                },
            }
        }
        config
    }
}

#[test]
fn settings() {
    const CASES: u64 = 1_000_000;
    let seen = Seen::run(0, CASES);
    seen.assert_full(CASES);
    seen.all().say("settings");
}

#[test]
fn the_defaults_are_the_originals() {
    let (ours, original) = (
        VadConfig::default().for_original(),
        speech_prep::VadConfig::default(),
    );
    assert_eq!(format!("{ours:?}"), format!("{original:?}"));
}

/// What 01's small table says of settings.
#[test]
fn small_table() {
    let config = VadConfig::default();
    assert_eq!(config.frame_length_samples(), Ok(320));
    assert_eq!(config.hop_length_samples(), Ok(160));
    assert_eq!(config.warmup_frames(), Ok(30));
    assert_eq!(raw::hop_length(5, 0.5), 3);
    let infinite = VadConfig {
        release_ratio: f32::INFINITY,
        ..config
    };
    assert_eq!(infinite.validate().unwrap_err().number(), 6);
    for (hop, warmup, refusal) in [(8, 300, 0), (7, 343, 12)] {
        assert_eq!(raw::warmup_frames(hop, 8_000), warmup);
        // Without overlap the hop is the frame: 8 samples are 1 ms.
        let config = VadConfig {
            sample_rate: 8_000,
            frame_duration: Duration::from_micros(125 * hop),
            frame_overlap: 0.0,
            ..config
        };
        let number = config
            .validate()
            .map_or_else(|refusal| refusal.number(), |()| 0);
        assert_eq!(number, refusal);
    }
}

/// Each limit on its own, so that no other refusal can stand for it: the value inside and the one outside.
#[test]
fn limits() {
    fn number(change: impl Fn(&mut VadConfig)) -> u32 {
        let mut config = VadConfig::default();
        change(&mut config);
        Seen::default().compare(&config, 0);
        config
            .validate()
            .map_or_else(|refusal| refusal.number(), |()| 0)
    }
    type Setter = fn(&mut VadConfig, f32);
    let floats: [(u32, Setter, &[f32], &[f32]); 7] = [
        (
            3,
            |c, x| c.frame_overlap = x,
            &[0.0, -0.0, 0.5],
            &[-f32::from_bits(1), 1.0],
        ),
        (
            4,
            |c, x| c.pre_emphasis = Some(x),
            &[0.0, -0.0, 1f32.next_down()],
            &[-f32::from_bits(1), 1.0],
        ),
        (
            5,
            |c, x| c.release_ratio = x,
            &[1.0, 2.5],
            &[1f32.next_down(), -2.0, 0.0, f32::NEG_INFINITY],
        ),
        (
            6,
            |c, x| c.activation_ratio = x,
            &[1.3, f32::MAX],
            &[1.3f32.next_down(), f32::INFINITY],
        ),
        (
            7,
            |c, x| c.min_speech_energy = x,
            &[0.0, -0.0, f32::MAX],
            &[-f32::from_bits(1), f32::INFINITY],
        ),
        (
            8,
            |c, x| c.noise_smoothing = x,
            &[0.0, -0.0, 1f32.next_down()],
            &[-f32::from_bits(1), 1.0],
        ),
        (
            9,
            |c, x| c.energy_floor = x,
            &[f32::from_bits(1), f32::MAX],
            &[0.0, -0.0, f32::INFINITY],
        ),
    ];
    for (refusal, set, inside, outside) in floats {
        for &x in inside {
            assert_eq!(number(|config| set(config, x)), 0, "{refusal}: {x}");
        }
        for &x in outside
            .iter()
            .chain(&[f32::NAN, -f32::NAN, f32::from_bits(0x7f80_0001)])
        {
            assert_eq!(number(|config| set(config, x)), refusal, "{refusal}: {x}");
        }
    }
    let nanos = Duration::from_nanos;
    for (rate, refusal) in [(7_999, 1), (8_000, 0), (48_000, 0), (48_001, 1)] {
        assert_eq!(number(|config| config.sample_rate = rate), refusal);
    }
    for (duration, refusal) in [(0, 2), (SECOND, 11), (SECOND + 1, 2), (u64::MAX, 2)] {
        assert_eq!(
            number(|config| config.frame_duration = nanos(duration)),
            refusal
        );
    }
    // 2,048.5 samples of 62,500 ns are rounded up.
    for (duration, refusal) in [(128_031_249, 0), (128_031_250, 11)] {
        assert_eq!(
            number(|config| config.frame_duration = nanos(duration)),
            refusal
        );
    }
    for (count, few, many) in [(0, 10, 0), (1, 0, 0), (10_000, 0, 0), (10_001, 13, 13)] {
        assert_eq!(number(|config| config.min_speech_frames = count), few);
        assert_eq!(number(|config| config.hangover_frames = count), many);
    }
    for (padding, refusal) in [(0, 0), (SECOND, 0), (SECOND + 1, 13)] {
        assert_eq!(
            number(|config| config.speech_padding = nanos(padding)),
            refusal
        );
    }
    for (start, refusal) in [((1 << 63) - 1, 0), (1 << 63, 13), (u64::MAX, 13)] {
        assert_eq!(number(|config| config.stream_start_time = start), refusal);
    }
    // The order is 01's.
    assert_eq!(
        number(|config| (config.release_ratio, config.activation_ratio) = (0.5, f32::NAN)),
        5
    );
}

/// Where there is no pre-emphasis, the word for it says nothing.
#[test]
fn an_absent_pre_emphasis_is_not_looked_at() {
    for pre_emphasis in [0.0, 0.97, 1.0, -1.0, f32::NAN, f32::INFINITY] {
        let refusal = |has_pre_emphasis| {
            raw::settings_refusal(&raw::Settings {
                has_pre_emphasis,
                pre_emphasis,
                ..VadConfig::default().into()
            })
        };
        assert_eq!(refusal(false), 0, "{pre_emphasis}");
        let inside = (0.0..1.0).contains(&pre_emphasis);
        assert_eq!(refusal(true), if inside { 0 } else { 4 }, "{pre_emphasis}");
    }
}

/// Frame lengths over the domain of refusals 1 and 2, longer frames than 11 allows too, and 0 outside it.
fn frame_lengths(random: &mut Random) {
    let rate = random.rate();
    let duration = match random.within(0, 2) {
        0 => random.half_sample(rate),
        1 => Duration::from_nanos(1 + random.word() % SECOND),
        _ => Duration::from_nanos(random.pick(&[1, 2, SECOND - 1, SECOND])),
    };
    let nanos = (duration.as_nanos() as u64).max(1);
    let config = speech_prep::VadConfig {
        sample_rate: rate,
        frame_duration: Duration::from_nanos(nanos),
        ..Default::default()
    };
    let length = config.frame_length_samples().expect("a second at most");
    assert_eq!(
        raw::frame_length(rate, nanos),
        length as u64,
        "{nanos} ns at {rate} Hz"
    );
    let wrong_rate = random.pick(&[0, 7_999, 48_001, u32::MAX]);
    assert_eq!(raw::frame_length(wrong_rate, nanos), 0);
    let wrong_duration = random.pick(&[0, SECOND + 1, u64::MAX]);
    assert_eq!(raw::frame_length(rate, wrong_duration), 0);
}

/// The original's hop of a frame with a given number of samples: 1 s at as many Hz. Whether f64 would make it another.
fn hops(random: &mut Random) -> bool {
    let length = match random.within(0, 3) {
        0 => random.within(1, 48_000),
        _ => random.within(1, 2_048),
    } as u32;
    let overlap = match random.within(0, 3) {
        0 => random.pick(&[
            0.0,
            -0.0,
            f32::from_bits(1),
            0.25,
            0.5,
            0.75,
            1f32.next_down(),
        ]),
        // The hop is some whole number and a half, nearly.
        1 => {
            let hop = (random.word() % u64::from(length)) as f32 + 0.5;
            (1.0 - hop / length as f32).clamp(0.0, 1f32.next_down())
        }
        _ => random.share(),
    };
    let config = speech_prep::VadConfig {
        sample_rate: length,
        frame_duration: Duration::from_secs(1),
        frame_overlap: overlap,
        ..Default::default()
    };
    assert_eq!(config.frame_length_samples().ok(), Some(length as usize));
    let hop = config.hop_length_samples().expect("a second") as u64;
    assert_eq!(
        raw::hop_length(u64::from(length), overlap),
        hop,
        "{length}, {overlap}"
    );
    let in_f64 = f64::from(length) * (1.0 - f64::from(overlap));
    (in_f64.round() as u64).max(1) != hop
}

fn same_warmup(hop: u32, rate: u32) -> u64 {
    let warmup = warmup_frames(hop as usize, rate) as u64;
    let port = raw::warmup_frames(u64::from(hop), rate);
    assert_eq!(port, warmup, "a hop of {hop} at {rate} Hz");
    warmup
}

/// Warm-ups for any hop, those around 300 frames among them.
fn warmups(random: &mut Random) {
    let rate = random.rate();
    let hop = match random.within(0, 2) {
        0 => (rate as i32 / 1_000 + random.within(-2, 2)).max(1),
        1 => random.within(1, 48_000),
        _ => random.within(1, 500),
    };
    same_warmup(hop as u32, rate);
}

counts! {
    Whole {
        Warmups: "warm-ups that are whole numbers of hops",
    }
}

/// Every rate and hop of which 0.3 s is a whole number. There a quotient that is a hair above would be rounded up; in f64 none is.
#[test]
fn whole_warmups() {
    let mut seen = Tally::default();
    for rate in (8_000..=48_000u32).step_by(10) {
        let samples = rate / 10 * 3;
        for hop in (1..=samples).filter(|&hop| samples.is_multiple_of(hop)) {
            assert_eq!(same_warmup(hop, rate), u64::from(samples / hop));
            seen[Whole::Warmups] += 1;
        }
    }
    seen.say("warm-ups");
    assert!(seen[Whole::Warmups] > 60_000);
}

/// Paddings up to a second, exact half samples among them. Whether exact numbers would make it another.
fn paddings(random: &mut Random) -> bool {
    let rate = random.rate();
    let nanos = match random.within(0, 2) {
        0 => random.word() % (SECOND + 1),
        1 => random.pick(&[0, 1, SECOND - 1, SECOND]),
        _ => {
            // An odd number of these is a whole number of samples and a half, where a whole number of nanoseconds is.
            let shared = gcd(SECOND / 2, u64::from(rate));
            (2 * (random.word() % shared) + 1) * (SECOND / 2 / shared)
        }
    };
    let padding = padding_samples(Duration::from_nanos(nanos), rate) as u64;
    assert_eq!(
        raw::padding_samples(nanos, rate),
        padding,
        "{nanos} ns at {rate} Hz"
    );
    (nanos * u64::from(rate) + SECOND / 2) / SECOND != padding
}

fn gcd(a: u64, b: u64) -> u64 {
    if b == 0 { a } else { gcd(b, a % b) }
}

/// Times over their domain, and 0 outside it.
fn times(random: &mut Random) {
    let (start, rate) = (random.start() >> 1, random.rate());
    let sample = random.sample().min(LAST);
    let time = time_of_sample(start, rate, sample);
    let port = raw::time_of_sample(start, rate, sample);
    assert_eq!(
        u128::from(port),
        time,
        "sample {sample} at {rate} Hz from {start}"
    );
    let late = LAST + 1 + random.word() % (u64::MAX - LAST);
    assert_eq!(raw::time_of_sample(start, rate, late), 0);
    assert_eq!(raw::time_of_sample(start | 1 << 63, rate, sample), 0);
    let wrong_rate = random.pick(&[0, 1, 7_999, 48_001, u32::MAX]);
    assert_eq!(raw::time_of_sample(start, wrong_rate, sample), 0);
}

counts! {
    /// Numbers that follow from settings.
    Followed {
        Cases: "frame lengths, times, warm-ups, hops and paddings each",
        Hops: "hops that f64 would make another",
        Paddings: "paddings that exact numbers would make another",
    }
}

type Numbers = Tally<Followed>;

impl Numbers {
    fn run(seed: u64, cases: u64) -> Numbers {
        let (mut numbers, mut random) = (Numbers::default(), Random::new(seed));
        for _ in 0..cases {
            frame_lengths(&mut random);
            times(&mut random);
            warmups(&mut random);
            numbers.count(Followed::Hops, hops(&mut random));
            numbers.count(Followed::Paddings, paddings(&mut random));
            numbers[Followed::Cases] += 1;
        }
        numbers
    }

    /// Fails unless some of the roundings were such that only the original's arithmetic gives them.
    fn assert_full(&self, cases: u64) {
        assert_eq!(self[Followed::Cases], cases);
        assert!(
            self[Followed::Hops] > 20 && self[Followed::Paddings] > 20,
            "{self}"
        );
    }
}

#[test]
fn numbers() {
    const CASES: u64 = 500_000;
    let numbers = Numbers::run(1, CASES);
    numbers.say("numbers");
    numbers.assert_full(CASES);
}

#[test]
#[ignore = "minutes"]
fn long_settings() {
    const PART: u64 = 1 << 16;
    const PARTS: u64 = 1_000;
    let (seen, time) = long("settings", PARTS, |seen: &mut Seen, part| {
        // Seeds other than the ordinary run's.
        *seen += &Seen::run(Random::new(part).word(), PART);
    });
    seen.assert_full(PARTS * PART);
    seen.all().say_after("settings", time);
}

#[test]
#[ignore = "minutes"]
fn long_numbers() {
    const PART: u64 = 1 << 16;
    const PARTS: u64 = 1_000;
    let (numbers, time) = long("numbers", PARTS, |numbers: &mut Numbers, part| {
        *numbers += &Numbers::run(Random::new(part).word(), PART);
    });
    numbers.assert_full(PARTS * PART);
    numbers.say_after("numbers", time);
}
