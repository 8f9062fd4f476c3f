//! The compiled arithmetic against judges that know nothing of it, and the compiled score against the table.
//!
//! The judges of the fused product: `f32::mul_add`, which the original calls; the processor's instruction; the C library's `fmaf`; and whole
//! numbers (`exact.rs`). Where the processor has the instruction, rustc's `f32::mul_add` is a jump to it, and the C library uses it too, unless it is
//! told not to: with `GLIBC_TUNABLES=glibc.cpu.hwcaps=-FMA` it runs its own algorithm. The judges of a root: the processor's instruction, and whole
//! numbers.
//!
//! The long runs: `tools/host test --release --test all -- --ignored --nocapture float::`.

mod cases;
mod exact;

use std::io::Write;
use std::sync::LazyLock;

use cases::{Family, compose, special};
use exact::Place;
use fallowcart::float::{mul_add, mul_add_bits, sqrt, sqrt_bits};
use fallowcart::score;

use crate::common::long::long;
use crate::common::random::Random;
use crate::common::tally::{Each, Tally, counts};

/// a * b + c by the processor's instruction, `None` where there is none.
fn by_instruction(a: f32, b: f32, c: f32) -> Option<f32> {
    #[cfg(target_arch = "x86_64")]
    {
        use std::arch::x86_64::{_mm_cvtss_f32, _mm_fmadd_ss, _mm_set_ss};

        #[target_feature(enable = "fma")]
        fn fused(a: f32, b: f32, c: f32) -> f32 {
            _mm_cvtss_f32(_mm_fmadd_ss(_mm_set_ss(a), _mm_set_ss(b), _mm_set_ss(c)))
        }

        if is_x86_feature_detected!("fma") {
            // SAFETY: the processor has the instruction.
            return Some(unsafe { fused(a, b, c) });
        }
    }
    let _ = (a, b, c);
    None
}

type Fmaf = extern "C" fn(f32, f32, f32) -> f32;

/// The C library's fused product, `None` where it is not found. It is looked up at run time, since rustc links its own function of that name.
static C_LIBRARY: LazyLock<Option<Fmaf>> = LazyLock::new(|| {
    #[cfg(target_os = "linux")]
    {
        use std::ffi::{c_char, c_int, c_void};

        unsafe extern "C" {
            fn dlopen(library: *const c_char, mode: c_int) -> *mut c_void;
            fn dlsym(library: *mut c_void, name: *const c_char) -> *mut c_void;
        }

        const RTLD_NOW: c_int = 2;
        // SAFETY: both names end in 0, the library is asked only where it was opened, and stays open; C's `fmaf` has this type.
        unsafe {
            let library = dlopen(c"libm.so.6".as_ptr(), RTLD_NOW);
            if !library.is_null() {
                let found = dlsym(library, c"fmaf".as_ptr());
                return (!found.is_null()).then(|| std::mem::transmute::<*mut c_void, Fmaf>(found));
            }
        }
    }
    None
});

/// The harness keeps back what a passing test prints with a macro. This shows always.
fn say(line: &str) {
    writeln!(std::io::stderr(), "{line}").expect("stderr");
}

fn hex(bits: Option<u32>) -> String {
    bits.map_or("no number".to_string(), |bits| format!("{bits:#010x}"))
}

counts! {
    /// What the fused cases were, by the exact judge.
    Fused {
        Cases: "fused products",
        ByInstruction: "compared with the instruction",
        ByCLibrary: "compared with the C library",
        NotFinite: "with an operand that is NaN or infinite",
        Overflows: "overflows",
        Largest: "answers of the largest float",
        SmallestNormal: "answers of the smallest normal float",
        Subnormal: "subnormal answers",
        PlusZero: "answers of +0",
        MinusZero: "answers of -0",
        Vanished: "answers of 0 for a sum that is not 0",
        Ties: "ties",
        Beside: "sums beside a middle",
        Cancelled: "sums that cancel",
        Settled: "sums settled by the small term",
        /// By fusing in f64 and narrowing.
        TwiceRounded: "sums that f64 would round twice, to another float",
    }
}

type Seen = Tally<Fused>;

impl Seen {
    /// Compares one case with every judge.
    fn compare(&mut self, [a, b, c]: [u32; 3]) {
        let port = mul_add_bits(a, b, c);
        let [x, y, z] = [a, b, c].map(f32::from_bits);
        let finite = x.is_finite() && y.is_finite() && z.is_finite();
        let bits = |answer: f32| (finite && answer.is_finite()).then(|| answer.to_bits());
        let rust = bits(x.mul_add(y, z));
        let instruction = by_instruction(x, y, z).map(bits);
        let c_library = C_LIBRARY.map(|fmaf| bits(fmaf(x, y, z)));
        let exact = exact::fused(a, b, c);
        let maybe = [instruction, c_library];
        if port != exact.bits
            || port != rust
            || maybe.into_iter().flatten().any(|bits| port != bits)
        {
            let absent = || "not asked".to_string();
            panic!(
                "fused {a:#010x} * {b:#010x} + {c:#010x}: the port {}, exactly {}, Rust {}, the instruction {}, the C library {}",
                hex(port),
                hex(exact.bits),
                hex(rust),
                instruction.map_or_else(absent, hex),
                c_library.map_or_else(absent, hex)
            );
        }

        self[Fused::Cases] += 1;
        self.count(Fused::ByInstruction, instruction.is_some());
        self.count(Fused::ByCLibrary, c_library.is_some());
        self.count(Fused::NotFinite, !finite);
        self.count(Fused::Overflows, finite && port.is_none());
        self.count(Fused::Ties, exact.place == Place::Middle);
        self.count(Fused::Beside, exact.place == Place::Beside);
        self.count(Fused::Cancelled, exact.cancelled);
        self.count(Fused::Settled, exact.settled);
        let Some(bits) = port else { return };
        match bits & 0x7fff_ffff {
            0 => {
                self.count(Fused::PlusZero, bits == 0);
                self.count(Fused::MinusZero, bits != 0);
                self.count(Fused::Vanished, exact.place != Place::Float);
            }
            1..=0x007f_ffff => self[Fused::Subnormal] += 1,
            0x0080_0000 => self[Fused::SmallestNormal] += 1,
            0x7f7f_ffff => self[Fused::Largest] += 1,
            _ => {}
        }
        let narrowed = (f64::from(x) * f64::from(y) + f64::from(z)) as f32;
        self.count(Fused::TwiceRounded, narrowed.to_bits() != bits);
    }

    fn family(family: Family, seed: u64, cases: u64) -> Seen {
        let (mut seen, mut random) = (Seen::default(), Random::new(seed));
        for _ in 0..cases {
            seen.compare(family.case(&mut random));
        }
        seen
    }

    /// Fails unless every case was compared, and the family was what it is for.
    fn assert_full(&self, family: Family, cases: u64) {
        self.say(&format!("fused, {family:?}"));
        assert_eq!(self[Fused::Cases], cases, "{family:?}");
        let all_or_none = |judge: bool| if judge { cases } else { 0 };
        let instruction = by_instruction(1.0, 1.0, 1.0).is_some();
        assert_eq!(
            self[Fused::ByInstruction],
            all_or_none(instruction),
            "{family:?}"
        );
        let c_library = C_LIBRARY.is_some();
        assert_eq!(
            self[Fused::ByCLibrary],
            all_or_none(c_library),
            "{family:?}"
        );
        // Each count with n: at least one case in n must be like that.
        let wanted: &[(u64, u64)] = match family {
            Family::Bits => &[(self[Fused::NotFinite], 100), (self[Fused::Overflows], 100)],
            Family::Overlap => &[(self[Fused::Ties], 1_000), (self[Fused::Beside], 1_000)],
            Family::Ties => &[
                (self[Fused::Ties], 8),
                (self[Fused::Beside], 8),
                (self[Fused::Subnormal], 8),
            ],
            Family::Cancel => &[
                (self[Fused::Cancelled], 2),
                (self[Fused::PlusZero], 100),
                (self[Fused::Subnormal], 1_000),
            ],
            Family::Apart => &[
                (self[Fused::Settled], 16),
                (self[Fused::Beside], 8),
                (self[Fused::TwiceRounded], 50),
            ],
            Family::Subnormal => &[
                (self[Fused::Subnormal], 4),
                (self[Fused::SmallestNormal], 100),
                (self[Fused::Vanished], 100),
                (self[Fused::Ties], 16),
            ],
            Family::Overflow => &[
                (self[Fused::Overflows], 8),
                (self[Fused::Largest], 8),
                (self[Fused::Ties], 16),
                (self[Fused::Settled], 16),
                (cases - self[Fused::Overflows], 4),
            ],
            Family::Zeros => &[
                (self[Fused::PlusZero], 8),
                (self[Fused::MinusZero], 8),
                (self[Fused::Vanished], 8),
            ],
        };
        for &(count, n) in wanted {
            assert!(
                n * count >= cases,
                "{family:?} misses its point, {count}: {self}"
            );
        }
    }
}

/// Cases of a family in an ordinary run.
const CASES: u64 = 200_000;

fn family(family: Family) {
    Seen::family(family, 0, CASES).assert_full(family, CASES);
}

/// Says who judges here, since a machine may lack one.
#[test]
fn judges() {
    let instruction = match by_instruction(3.0, 5.0, 7.0) {
        Some(answer) => {
            assert_eq!(answer, 22.0);
            "the processor's instruction"
        }
        None => "NOT the processor's instruction, which it lacks",
    };
    let c_library = match *C_LIBRARY {
        Some(fmaf) => {
            assert_eq!(fmaf(3.0, 5.0, 7.0), 22.0);
            "the C library"
        }
        None => "NOT the C library, whose fmaf was not found",
    };
    let tunables = std::env::var("GLIBC_TUNABLES").unwrap_or("not set".into());
    say(&format!(
        "fused, the judges: f32::mul_add, {instruction}, {c_library} (GLIBC_TUNABLES: {tunables}), whole numbers"
    ));
}

#[test]
fn fused_bits() {
    family(Family::Bits);
}

#[test]
fn fused_overlap() {
    family(Family::Overlap);
}

#[test]
fn fused_ties() {
    family(Family::Ties);
}

#[test]
fn fused_cancel() {
    family(Family::Cancel);
}

#[test]
fn fused_apart() {
    family(Family::Apart);
}

#[test]
fn fused_subnormal() {
    family(Family::Subnormal);
}

#[test]
fn fused_overflow() {
    family(Family::Overflow);
}

#[test]
fn fused_zeros() {
    family(Family::Zeros);
}

#[test]
fn fused_special() {
    let mut seen = Seen::default();
    for a in special() {
        for b in special() {
            for c in special() {
                seen.compare([a, b, c]);
                let [x, y, z] = [a, b, c].map(f32::from_bits);
                assert_eq!(mul_add(x, y, z).map(f32::to_bits), mul_add_bits(a, b, c));
            }
        }
    }
    seen.say("fused, special");
    assert_eq!(seen[Fused::Cases], 60 * 60 * 60);
    // 48 of the 60 patterns are finite.
    assert_eq!(seen[Fused::NotFinite], 60 * 60 * 60 - 48 * 48 * 48);
    seen.assert_met(&[
        Fused::Overflows,
        Fused::Subnormal,
        Fused::PlusZero,
        Fused::MinusZero,
        Fused::Vanished,
        Fused::Ties,
        Fused::Beside,
        Fused::Cancelled,
        Fused::Settled,
        Fused::TwiceRounded,
    ]);
}

/// 2^n
fn power(n: i32) -> f32 {
    2f32.powi(n)
}

#[test]
fn fused_examples() {
    // Rounded twice, the product would lose its last digit, and the first answer would be 0.
    let a = 1.0 + power(-12);
    let c = -(1.0 + power(-11));
    assert_eq!(mul_add(a, a, c), Some(power(-24)));
    assert_eq!(a * a + c, 0.0);

    // The product is a tie, and 2^-60 settles it. In f64 the sum is the tie again, and narrowing takes the even float.
    let above = 1.0 + power(-11) + power(-23);
    assert_eq!(mul_add(a, a, power(-60)), Some(above));
    let narrowed = f64::from(a).mul_add(f64::from(a), f64::from(power(-60))) as f32;
    assert_eq!(narrowed, 1.0 + power(-11));
    assert_ne!(narrowed, above);
}

counts! {
    /// What the roots were.
    Root {
        Cases: "roots",
        None: "without a number",
        Zeros: "roots of zeros",
        Subnormal: "roots of subnormals",
        /// The answer squared is the argument.
        Whole: "exact roots",
    }
}

type Roots = Tally<Root>;

impl Roots {
    /// Compares one root with the processor's, and tests that no float is nearer.
    fn compare(&mut self, bits: u32) {
        let port = sqrt_bits(bits);
        let x = f32::from_bits(bits);
        let processor = (x.is_finite() && x >= 0.0).then(|| x.sqrt().to_bits());
        let nearest = match port {
            None => !x.is_finite() || x < 0.0,
            Some(root) if x == 0.0 => root == bits,
            Some(root) => x > 0.0 && exact::is_root(bits, root),
        };
        if port != processor || !nearest {
            panic!(
                "root of {bits:#010x}: the port {}, the processor {}; by squares the port is {}",
                hex(port),
                hex(processor),
                if nearest { "right" } else { "wrong" }
            );
        }

        self[Root::Cases] += 1;
        self.count(Root::None, port.is_none());
        self.count(Root::Zeros, x == 0.0);
        self.count(Root::Subnormal, x.is_subnormal() && x > 0.0);
        let root = f64::from(f32::from_bits(port.unwrap_or(0)));
        self.count(Root::Whole, x > 0.0 && root * root == f64::from(x));
    }
}

#[test]
fn roots_special() {
    let mut seen = Roots::default();
    for bits in special() {
        seen.compare(bits);
        assert_eq!(
            sqrt(f32::from_bits(bits)).map(f32::to_bits),
            sqrt_bits(bits)
        );
    }
    assert_eq!((seen[Root::Cases], seen[Root::Zeros]), (60, 2));
    // Those that are not finite, and the finite ones below 0.
    assert_eq!(seen[Root::None], 12 + 23);
}

#[test]
fn roots_over_all_patterns() {
    let mut seen = Roots::default();
    let mut refused = 0;
    for bits in (0..=u32::MAX).step_by(2_053) {
        seen.compare(bits);
        // The exact judge is no yes-man: it refuses the floats beside a root.
        if let Some(root @ 1..) = sqrt_bits(bits) {
            assert!(!exact::is_root(bits, root - 1) && !exact::is_root(bits, root + 1));
            refused += 1;
        }
    }
    seen.say("roots over all patterns");
    assert_eq!(seen[Root::Cases], (1 << 32) / 2_053 + 1);
    assert_eq!(
        refused,
        seen[Root::Cases] - seen[Root::None] - seen[Root::Zeros]
    );
    assert!(
        seen[Root::None] > seen[Root::Cases] / 2
            && seen[Root::Subnormal] > 4_000
            && seen[Root::Whole] > 0
    );
}

#[test]
fn roots_of_squares() {
    let (mut squares, mut beside) = (Roots::default(), Roots::default());
    for n in 1..1u64 << 12 {
        for scale in -74..64 {
            // Some of these squares are too large or too small for a float.
            let Some(square) = compose(n * n, 2 * scale) else {
                continue;
            };
            squares.compare(square);
            assert_eq!(sqrt_bits(square), compose(n, scale));
            for off in [-2, -1, 1, 2] {
                beside.compare(square.saturating_add_signed(off));
            }
        }
    }
    squares.say("roots of squares");
    beside.say("roots beside squares");
    assert!(squares[Root::Cases] > 400_000 && squares[Root::Subnormal] > 4_000);
    assert_eq!(squares[Root::Whole], squares[Root::Cases]);
    assert_eq!(beside[Root::Cases], 4 * squares[Root::Cases]);
    assert!(beside[Root::Whole] < beside[Root::Cases] / 100);
}

#[test]
fn roots_of_subnormals() {
    let mut seen = Roots::default();
    (1..0x0080_0000)
        .filter(|bits| bits % 31 == 1 || *bits < 5_000 || *bits > 0x007f_f000)
        .for_each(|bits| seen.compare(bits));
    seen.say("roots of subnormals");
    assert!(seen[Root::Cases] > 270_000);
    assert_eq!(seen[Root::Subnormal], seen[Root::Cases]);
}

/// The thresholds as the port's source has them: entry k is the least float that scores k.
fn thresholds() -> Vec<f32> {
    let source = include_str!("../../crates/score/src/thresholds.rt");
    let table = source.split("= [").nth(1).expect("the table's start");
    let table = table.split("];").next().expect("the table's end");
    let table: Vec<f32> = table
        .split(',')
        .map(str::trim)
        .filter(|word| !word.is_empty())
        .map(|word| {
            let digits = word.strip_prefix("0x").expect("0x").replace('_', "");
            f32::from_bits(u32::from_str_radix(&digits, 16).expect("hexadecimal"))
        })
        .collect();
    assert_eq!(table.len(), 1_025);
    table
}

counts! {
    /// What the scores were.
    Score {
        Cases: "scores",
        None: "scores of 0",
        Full: "scores of 1,024",
        Between: "scores between",
    }
}

type Scores = Tally<Score>;

impl Scores {
    /// NaN is above no threshold.
    fn compare(&mut self, table: &[f32], bits: u32) {
        let ratio = f32::from_bits(bits);
        let reached = table.partition_point(|&least| least <= ratio) as u64;
        let (port, expected) = (score(ratio), reached.saturating_sub(1));
        assert!(
            port == expected,
            "score of {bits:#010x}: the port {port}, the table {expected}"
        );
        self[Score::Cases] += 1;
        match port {
            0 => self[Score::None] += 1,
            1_024 => self[Score::Full] += 1,
            _ => self[Score::Between] += 1,
        }
    }
}

#[test]
fn scores() {
    let table = thresholds();
    let mut seen = Scores::default();
    (0x3f80_0000..=0x4120_0000)
        .step_by(1_021)
        .for_each(|bits| seen.compare(&table, bits));
    assert_eq!(seen[Score::Cases], 0x01a0_0000 / 1_021 + 1);
    assert!(seen[Score::Between] > 26_000);
    for least in &table {
        for off in [-1, 0, 1] {
            seen.compare(&table, least.to_bits().saturating_add_signed(off));
        }
    }
    special().for_each(|bits| seen.compare(&table, bits));
    (0..=u32::MAX)
        .step_by(65_537)
        .for_each(|bits| seen.compare(&table, bits));
    seen.say("scores");
    assert_eq!(
        seen[Score::Cases],
        0x01a0_0000 / 1_021 + 1 + 3 * 1_025 + 60 + 65_535 + 1
    );
    assert!(seen[Score::None] > 40_000 && seen[Score::Full] > 10_000);
}

#[test]
#[ignore = "minutes"]
fn long_fused() {
    const BLOCK: u64 = 1 << 16;
    const BLOCKS: u64 = 1_000;
    let families = Family::ALL.len() as u64;
    let (seen, time) = long(
        "fused",
        families * BLOCKS,
        |seen: &mut Each<Fused, { Family::ALL.len() }>, block| {
            let family = (block % families) as usize;
            // Seeds other than the ordinary run's.
            seen.0[family] += &Seen::family(Family::ALL[family], Random::new(block).word(), BLOCK);
        },
    );
    for (family, seen) in Family::ALL.into_iter().zip(&seen.0) {
        seen.assert_full(family, BLOCKS * BLOCK);
    }
    let all = seen.all();
    assert!(all[Fused::Cases] >= 200_000_000);
    all.say_after("fused", time);
}

#[test]
#[ignore = "minutes"]
fn long_roots() {
    const BLOCK: u64 = 1 << 20;
    let (seen, time) = long("roots", 1 << 12, |seen: &mut Roots, block| {
        (block * BLOCK..(block + 1) * BLOCK).for_each(|bits| seen.compare(bits as u32));
    });
    assert_eq!(seen[Root::Cases], 1 << 32);
    // The finite patterns that are not negative, and -0, have a root.
    assert_eq!(seen[Root::None], (1 << 32) - 0x7f80_0000 - 1);
    assert_eq!((seen[Root::Zeros], seen[Root::Subnormal]), (2, 0x7f_ffff));
    seen.say_after("roots", time);
}

#[test]
#[ignore = "minutes"]
fn long_scores() {
    const BLOCK: u64 = 1 << 20;
    // 0.5 to 20: all that score neither 0 nor 1,024, and some around.
    let every = 0x3f00_0000..=0x41a0_0000;
    let table = thresholds();
    let (seen, time) = long("scores", 1 << 12, |seen: &mut Scores, block| {
        (block * BLOCK..(block + 1) * BLOCK)
            .filter(|bits| every.contains(bits) || bits % 97 == 0)
            .for_each(|bits| seen.compare(&table, bits as u32));
    });
    let rest = (0..1u64 << 32)
        .step_by(97)
        .filter(|bits| !every.contains(bits));
    assert_eq!(seen[Score::Cases], 44_040_193 + rest.count() as u64);
    assert!(seen[Score::Between] > 27_000_000);
    seen.say_after("scores", time);
}
