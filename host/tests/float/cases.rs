//! Operands that are hard for a fused multiply-add, by family, and the list of special patterns.

use crate::common::random::Random;

impl Random {
    fn sign(&mut self) -> u32 {
        (self.word() as u32) & SIGN
    }

    /// A number of exactly this many binary digits that ends in 1.
    fn odd(&mut self, digits: i32) -> u64 {
        1 << (digits - 1) | self.word() & ((1 << (digits - 1)) - 1) | 1
    }
}

const SIGN: u32 = 1 << 31;

/// The bits of m * 2^e, where that is a finite float exactly.
pub fn compose(m: u64, e: i32) -> Option<u32> {
    if m == 0 {
        return Some(0);
    }
    let (m, e) = (m >> m.trailing_zeros(), e + m.trailing_zeros() as i32);
    let digits = 64 - m.leading_zeros() as i32;
    let top = e + digits - 1;
    if digits > 24 || e < -149 || top > 127 {
        None
    } else if top < -126 {
        Some((m << (e + 149)) as u32)
    } else {
        // The leading digit adds the one that the exponent's field lacks here.
        Some((((top + 126) as u32) << 23) + (m << (24 - digits)) as u32)
    }
}

/// A float of either sign from 2^low up to below 2^(high + 1), with the shapes of significand that make carries.
fn float(random: &mut Random, low: i32, high: i32) -> u32 {
    let top = random.within(low.max(-149), high.min(127));
    let fraction = random.word() & 0x7f_ffff;
    let cut = random.within(0, 23);
    let m = 1 << 23
        | match random.within(0, 5) {
            0 => fraction >> cut << cut,
            1 => 0x7f_ffff ^ (fraction >> cut),
            2 => fraction >> cut,
            _ => fraction,
        };
    // A subnormal keeps the leading digits that fit.
    let lost = (-126 - top).max(0);
    random.sign() | compose(m >> lost, top - 23 + lost).expect("24 digits from 2^-149 up")
}

/// The inverse of an odd x in words of 64 digits, by Newton's steps.
fn inverse(x: u64) -> u64 {
    (0..6).fold(x, |y, _| {
        y.wrapping_mul(2u64.wrapping_sub(x.wrapping_mul(y)))
    })
}

/// A product and an addend whose exact sum is the middle between two floats, `middle` * 2^`half`, or lies beside it by 2^-s of half a step, s random.
/// The product brings the last digits, which the addend cannot reach. `None` where this random choice does not fit into floats.
fn around(random: &mut Random, middle: u64, half: i32) -> Option<[u32; 3]> {
    let off = random.within(-1, 1);
    let s = if off == 0 { 0 } else { random.within(0, 23) };
    let sum = (middle << s) as i64 + i64::from(off);
    let sum = if random.one_in(2) { sum } else { -sum };
    // x * y and the sum agree in the last s + 1 digits, so that what is left for the addend mostly fits into a float.
    let y_digits = random.within(s + 1, 24);
    let x_digits = random.within(1, (26 + s - y_digits).clamp(1, 24));
    let x = random.odd(x_digits);
    let last = (1 << (s + 1)) - 1;
    let above = random.word() & ((1 << y_digits) - 1) & !last;
    let y = inverse(x).wrapping_mul(sum as u64) & last | above;
    let rest = sum - (x * y) as i64;
    let (a, b) = split(random, x, y, half - s)?;
    let c = compose(rest.unsigned_abs(), half - s)? | if rest < 0 { SIGN } else { 0 };
    Some(mirrored(random, [a, b, c]))
}

/// The same case with the signs and the factors changed in a way that keeps it the same case.
fn mirrored(random: &mut Random, [a, b, c]: [u32; 3]) -> [u32; 3] {
    let (both, all) = (random.sign(), random.sign());
    let (a, b, c) = (a ^ both ^ all, b ^ both, c ^ all);
    if random.one_in(2) {
        [a, b, c]
    } else {
        [b, a, c]
    }
}

/// The first of `make`'s answers that there is.
fn until(random: &mut Random, mut make: impl FnMut(&mut Random) -> Option<[u32; 3]>) -> [u32; 3] {
    loop {
        if let Some(case) = make(random) {
            return case;
        }
    }
}

#[derive(Clone, Copy, PartialEq, Eq, Debug)]
pub enum Family {
    /// Any three patterns.
    Bits,
    /// Finite operands whose terms overlap.
    Overlap,
    /// The sum is a middle between two floats, or lies beside one.
    Ties,
    /// c is the rounded product with the other sign, or a few floats off.
    Cancel,
    /// Terms so far apart that the small one only settles which way to round.
    Apart,
    /// Sums around 2^-126, around 2^-149 and below.
    Subnormal,
    /// Sums around 2^128.
    Overflow,
    /// Zeros among the operands or as the answer.
    Zeros,
}

impl Family {
    pub const ALL: [Family; 8] = [
        Family::Bits,
        Family::Overlap,
        Family::Ties,
        Family::Cancel,
        Family::Apart,
        Family::Subnormal,
        Family::Overflow,
        Family::Zeros,
    ];

    pub fn case(self, random: &mut Random) -> [u32; 3] {
        match self {
            Family::Bits => [(); 3].map(|()| random.word() as u32),
            Family::Overlap => overlap(random),
            Family::Ties => until(random, ties),
            Family::Cancel => cancel(random),
            Family::Apart => until(random, apart),
            Family::Subnormal => until(random, subnormal),
            Family::Overflow => until(random, overflow),
            Family::Zeros => zeros(random),
        }
    }
}

/// The exponent of a float's leading digit, for one that is not subnormal.
fn top(bits: u32) -> i32 {
    (bits >> 23 & 0xff) as i32 - 127
}

fn overlap(random: &mut Random) -> [u32; 3] {
    let (a, b) = (float(random, -60, 60), float(random, -60, 60));
    let at = top(a) + top(b);
    [a, b, float(random, at - 30, at + 30)]
}

fn ties(random: &mut Random) -> Option<[u32; 3]> {
    if random.one_in(4) {
        // Among the subnormals a step is 2^-149.
        let digits = random.within(1, 24);
        let middle = random.odd(digits);
        return around(random, middle, -150);
    }
    let digits = match random.within(0, 7) {
        0 => 1 << 23,
        1 => (1 << 24) - 1,
        _ => 1 << 23 | random.word() & 0x7f_ffff,
    };
    let at = random.within(-126, 127);
    around(random, 2 * digits + 1, at - 24)
}

fn cancel(random: &mut Random) -> [u32; 3] {
    let (mut a, mut b) = (float(random, -75, 60), float(random, -75, 60));
    if random.one_in(3) {
        // Factors of 12 digits: the product is a float, and c can take all of it away.
        (a, b) = (a & !0xfff, b & !0xfff);
    }
    let product = (f32::from_bits(a) * f32::from_bits(b)).to_bits();
    let few = random.within(-3, 3);
    let c = (product & !SIGN).saturating_add_signed(few) | (product ^ SIGN) & SIGN;
    [a, b, c]
}

/// Two factors whose leading digits multiply to 2^place.
fn factors(random: &mut Random, place: i32) -> (u32, u32) {
    let at = random.within((place - 127).max(-149), (place + 149).min(127));
    (float(random, at, at), float(random, place - at, place - at))
}

/// x * y * 2^unit as two factors, where they are floats.
fn split(random: &mut Random, x: u64, y: u64, unit: i32) -> Option<(u32, u32)> {
    let at = unit / 2 + random.within(-30, 30);
    Some((compose(x, at)?, compose(y, unit - at)?))
}

fn apart(random: &mut Random) -> Option<[u32; 3]> {
    let at = random.within(-120, 127);
    let (a, b, c);
    match random.within(0, 6) {
        kind @ 0..3 => {
            // A product of 25 digits is a middle of its own, one of fewer is a float; c is far below.
            let digits = if kind < 2 { 25 } else { random.within(2, 24) };
            let x_digits = random.within((digits - 22).max(1), digits.min(24) - 1);
            let (x, y) = (random.odd(x_digits), random.odd(digits + 1 - x_digits));
            if (x * y) >> (digits - 1) != 1 {
                return None;
            }
            (a, b) = split(random, x, y, at + 1 - digits)?;
            let low = if random.one_in(2) { at - 60 } else { -149 };
            c = float(random, low, at - 26);
        }
        3 => {
            // The product is about half of c's last place, or less by powers of two: half a step below a power of two is a quarter.
            // The last three are 2^46 - 1, 2^46 + 1 and 2^47 - 1.
            let (i, j) = (random.within(0, 3) as u64, random.within(0, 3) as u64);
            let (x, y) = match random.within(0, 5) {
                0 => ((1 << 23) + i, (1 << 23) + j),
                1 => ((1 << 23) + i, (1 << 24) - j),
                2 => ((1 << 24) - 1 - i, (1 << 24) - 1 - j),
                3 => ((1 << 23) - 1, (1 << 23) + 1),
                4 => ((1 << 23) - (1 << 12) + 1, (1 << 23) + (1 << 12) + 1),
                _ => (10_610_063, 13_264_529),
            };
            let unit = at - 24 - 46 - random.within(0, 2);
            (a, b) = split(random, x, y, unit)?;
            let power = if random.one_in(2) { 0x7f_ffff } else { 0 };
            c = float(random, at, at) & !power;
        }
        4 => {
            // The same with the terms exchanged: the product is a power of two or a float, and c is about half of its last place.
            let digits = if random.one_in(2) { 1 } else { 12 };
            let (x, y) = (random.odd(digits), random.odd(digits));
            (a, b) = split(random, x, y, at + 1 - 2 * digits)?;
            let small = compose(1, at - 24 - random.within(0, 2))?;
            c = small.checked_add_signed(random.within(-3, 3))? | random.sign();
        }
        5 => {
            // The product lies beside a middle by one in its last place, and c takes about that one away.
            let s = random.within(1, 22);
            let one = if random.one_in(2) { 1 } else { -1 };
            let x = random.odd(24);
            let y = inverse(x).wrapping_mul((1u64 << s).wrapping_add_signed(one));
            let y = y & ((1 << (s + 1)) - 1);
            if (x * y) >> (24 + s) != 1 {
                return None;
            }
            (a, b) = split(random, x, y, at - 24 - s)?;
            let last = compose(1, at - 24 - s)?.checked_add_signed(random.within(-3, 3))?;
            c = if one < 0 { last } else { last | SIGN };
        }
        _ => {
            // The product is far below c, down to 2^-298.
            let place = random.within(-298, at - 26);
            (a, b) = factors(random, place);
            c = float(random, at, at);
        }
    }
    Some(mirrored(random, [a, b, c]))
}

fn subnormal(random: &mut Random) -> Option<[u32; 3]> {
    match random.within(0, 3) {
        0 => {
            let digits = random.within(1, 24);
            let middle = random.odd(digits);
            around(random, middle, -150)
        }
        1 => {
            let place = random.within(-156, -120);
            let (a, b) = factors(random, place);
            let c = match random.within(0, 3) {
                0 => random.sign(),
                1 => random.sign() | random.word() as u32 & 0xff_ffff,
                _ => float(random, -149, -120),
            };
            Some([a, b, c])
        }
        2 => {
            // Below half of the smallest float, beside floats where that can change the answer.
            let place = random.within(-298, -149);
            let (a, b) = factors(random, place);
            let c = random.pick(&[0, 1, 2, 3, 0x7f_ffff, 0x80_0000, 0x80_0001, 0x100_0000]);
            Some([a, b, c | random.sign()])
        }
        _ => {
            // Across 2^-126, from either side.
            let c = 0x80_0000u32.saturating_add_signed(random.within(-4, 4));
            let place = random.within(-152, -124);
            let (a, b) = factors(random, place);
            Some([a, b, c | random.sign()])
        }
    }
}

fn overflow(random: &mut Random) -> Option<[u32; 3]> {
    match random.within(0, 4) {
        0 => {
            // 2^128 - 2^103, the middle between the largest float and 2^128, and beside it.
            around(random, (1 << 25) - 1, 103)
        }
        1 => {
            let less = random.within(0, 3) as u64;
            around(random, (1 << 25) - 1 - 2 * less, 103)
        }
        2 => {
            // The product is that middle, and c settles it. 2^25 - 1 is 31 * 601 * 1801.
            let factors = [(31, 601 * 1801), (601, 31 * 1801), (1801, 31 * 601)];
            let (x, y) = factors[random.within(0, 2) as usize];
            let (a, b) = split(random, x, y, 103)?;
            let c = float(random, -149, 101);
            Some(mirrored(random, [a, b, c]))
        }
        3 => {
            let c = 0x7f7f_ffff - random.within(0, 3) as u32;
            let place = random.within(99, 106);
            let (a, b) = factors(random, place);
            Some([a, b, c | random.sign()])
        }
        _ => {
            let place = random.within(124, 131);
            let (a, b) = factors(random, place);
            Some([a, b, float(random, 90, 127)])
        }
    }
}

fn zeros(random: &mut Random) -> [u32; 3] {
    match random.within(0, 3) {
        0 => {
            // The product is too small for a float, and c is a zero.
            let place = random.within(-298, -148);
            let (a, b) = factors(random, place);
            [a, b, random.sign()]
        }
        1 => {
            let (a, b) = (float(random, -60, 60), float(random, -60, 60));
            let (a, b) = (a & !0xfff, b & !0xfff);
            let c = (f32::from_bits(a) * f32::from_bits(b)).to_bits() ^ SIGN;
            [a, b, c]
        }
        _ => [(); 3].map(|()| {
            if random.one_in(2) {
                random.sign()
            } else {
                float(random, -149, 127)
            }
        }),
    }
}

/// Magnitudes that arithmetic has rules of its own for, or that lie beside such; each stands for two patterns, by sign.
const SPECIAL: [u32; 30] = [
    0,
    // 1, 2 and 3 of 2^-149, 2^-127, and the largest subnormal
    1,
    2,
    3,
    0x0040_0000,
    0x007f_ffff,
    // from 2^-126
    0x0080_0000,
    0x0080_0001,
    // 2^-75 and 2^-74, whose squares are half of the smallest float and twice that
    0x1a00_0000,
    0x1a80_0000,
    // 2^-24, 1 / 2, around 1, 1 + 2^-12, 2, 3
    0x3380_0000,
    0x3f00_0000,
    0x3f7f_ffff,
    0x3f80_0000,
    0x3f80_0001,
    0x3f80_0800,
    0x4000_0000,
    0x4040_0000,
    // 65,536, 2^23, 2^24 - 1, 2^24 + 2, 2^64
    0x4780_0000,
    0x4b00_0000,
    0x4b7f_ffff,
    0x4b80_0001,
    0x5f80_0000,
    // the largest, infinity, two signalling NaNs, three quiet ones
    0x7f7f_ffff,
    0x7f80_0000,
    0x7f80_0001,
    0x7fa5_a5a5,
    0x7fc0_0000,
    0x7fc5_a5a5,
    0x7fff_ffff,
];

pub fn special() -> impl Iterator<Item = u32> + Clone {
    SPECIAL.iter().flat_map(|&bits| [bits, bits | SIGN])
}
