//! The compiled roundings to and from whole numbers against Rust's `round`, `ceil` and `as`.
//!
//! The long run, every f32: `tools/host test --release --test all -- --ignored --nocapture whole::`.

use fallowcart::whole::{ceil_f64, nearest, round_f32, round_f64};

use crate::common::long::long;
use crate::common::random::Random;
use crate::common::tally::{Tally, counts};

counts! {
    /// What was rounded.
    Rounded {
        F32: "f32 rounded",
        F64: "f64 rounded and rounded up",
        Fractions: "f64 with a fraction",
        Counts: "counts made f32",
        Ties: "ties among counts",
    }
}

type Seen = Tally<Rounded>;

impl Seen {
    fn f32(&mut self, bits: u32) {
        let x = f32::from_bits(bits);
        assert_eq!(round_f32(x), x.round() as u64, "round of {bits:#010x}");
        self[Rounded::F32] += 1;
    }

    fn f64(&mut self, bits: u64) {
        let x = f64::from_bits(bits);
        assert_eq!(round_f64(x), x.round() as u64, "round of {bits:#018x}");
        assert_eq!(ceil_f64(x), x.ceil() as u64, "ceil of {bits:#018x}");
        self[Rounded::F64] += 1;
    }

    /// Both signs of a float and of those beside it. Stepping past the infinities gives NaNs, and they stay in.
    fn around_f64(&mut self, x: f64) {
        for off in -2..=2 {
            let bits = x.to_bits().wrapping_add_signed(off);
            self.f64(bits);
            self.f64(bits ^ 1 << 63);
        }
    }

    fn a_count(&mut self, n: u64) {
        assert_eq!(nearest(n).to_bits(), (n as f32).to_bits(), "nearest of {n}");
        self[Rounded::Counts] += 1;
    }
}

#[test]
fn f32_over_all_patterns() {
    let mut seen = Seen::default();
    for bits in (0..=u32::MAX).step_by(1_021) {
        seen.f32(bits);
    }
    seen.say("f32 over all patterns");
    assert_eq!(seen[Rounded::F32], (1u64 << 32) / 1_021 + 1);
}

/// Whole numbers, the middles between them and the floats beside each: where a wrong rounding differs.
#[test]
fn middles() {
    let mut seen = Seen::default();
    for n in 0..100_000u32 {
        for half in [0.0, 0.5] {
            seen.around_f64(f64::from(n) + half);
            // Up to 2^23 each middle is an f32.
            let middle = (n as f32 + half as f32).to_bits();
            for off in [-1, 0, 1] {
                seen.f32(middle.saturating_add_signed(off));
            }
        }
    }
    seen.say("middles");
    assert_eq!(seen[Rounded::F64], 100_000 * 2 * 10);
    assert_eq!(seen[Rounded::F32], 100_000 * 2 * 3);
}

/// Every normal power of two, where a format's middles and its fractions end, the ends of u64 and of the format, and what is not finite.
#[test]
fn ends() {
    let mut seen = Seen::default();
    for e in -1_022..1_024 {
        seen.around_f64(2f64.powi(e));
    }
    for x in [0.0, f64::MAX, f64::INFINITY, f64::NAN] {
        seen.around_f64(x);
    }
    for x in [f32::NAN, f32::INFINITY, f32::MAX, 0.0, 0.499_999_97, 0.5] {
        for x in [x, -x] {
            seen.f32(x.to_bits());
        }
    }
    seen.say("ends");
    assert_eq!(seen[Rounded::F64], (2_046 + 4) * 10);
    assert_eq!(seen[Rounded::F32], 12);
    assert_eq!(round_f64(0.499_999_999_999_999_94), 0);
    assert_eq!((round_f64(2.5), ceil_f64(2.5), ceil_f64(2.0)), (3, 3, 2));
    assert_eq!(round_f64(1e300), u64::MAX);
}

#[test]
fn f64_at_random() {
    let (mut random, mut seen) = (Random::new(1), Seen::default());
    for _ in 0..500_000 {
        let word = random.word();
        seen.f64(word);
        // Again with an exponent from 2^-2 to 2^66, where the roundings have work to do.
        let bits = word >> 12 | (1_021 + word % 69) << 52;
        seen.count(Rounded::Fractions, f64::from_bits(bits).fract() != 0.0);
        seen.f64(bits);
    }
    seen.say("f64 at random");
    assert!(seen[Rounded::Fractions] > 300_000, "{seen}");
}

/// Counts of every size: at random, and at and beside each kind of tie.
#[test]
fn counts() {
    let (mut random, mut seen) = (Random::new(2), Seen::default());
    for digits in 1..=64 {
        let cut = (digits - 24_i32).max(0) as u32;
        for _ in 0..4_000 {
            let n = random.word() >> (64 - digits) | 1 << (digits - 1);
            let middle = if cut == 0 {
                n
            } else {
                n >> cut << cut | 1 << (cut - 1)
            };
            seen.count(Rounded::Ties, cut > 0);
            for n in [n, middle, middle.wrapping_sub(1), middle.wrapping_add(1)] {
                seen.a_count(n);
            }
        }
    }
    for n in (0..=1u64 << 25).step_by(13).chain([0, u64::MAX, 1 << 40]) {
        seen.a_count(n);
    }
    seen.say("counts");
    assert_eq!(seen[Rounded::Ties], 40 * 4_000);
    assert_eq!(
        seen[Rounded::Counts],
        64 * 4_000 * 4 + (1 << 25) / 13 + 1 + 3
    );
}

#[test]
#[ignore = "minutes"]
fn long_f32() {
    const BLOCK: u64 = 1 << 20;
    let (seen, time) = long("round_f32", 1 << 12, |seen: &mut Seen, block| {
        (block * BLOCK..(block + 1) * BLOCK).for_each(|bits| seen.f32(bits as u32));
    });
    assert_eq!(seen[Rounded::F32], 1 << 32);
    seen.say_after("round_f32", time);
}
