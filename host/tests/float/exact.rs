//! The fused product and the root by whole numbers alone, as rounding to nearest is defined: every number is exact until it is compared with the
//! middle between two neighbouring floats.

use std::cmp::Ordering;

/// The pattern after the largest finite one. Read as a number by the same rule it is 2^128, the float that would follow.
const BEYOND: u32 = 0x7f80_0000;

/// A float without its sign as m * 2^e. The exponent's field 0 has no leading digit and the place of field 1.
fn parts(bits: u32) -> (u64, i32) {
    let (field, rest) = (bits >> 23 & 0xff, u64::from(bits & 0x7f_ffff));
    match field {
        0 => (rest, -149),
        _ => (rest | 1 << 23, field as i32 - 150),
    }
}

/// A whole number of 2^-298, least limb first. Each |a * b| and each |c| is one, and their sum is below 2^257, which is 2^555 of them.
#[derive(Clone, Copy, PartialEq, Eq)]
struct Units([u64; 9]);

impl Units {
    /// m * 2^e
    fn new(m: u64, e: i32) -> Units {
        let shift = (e + 298) as u32;
        let (limb, wide) = ((shift / 64) as usize, u128::from(m) << (shift % 64));
        let mut limbs = [0; 9];
        limbs[limb] = wide as u64;
        limbs[limb + 1] = (wide >> 64) as u64;
        Units(limbs)
    }

    fn of_float(bits: u32) -> Units {
        let (m, e) = parts(bits);
        Units::new(m, e)
    }

    fn plus(mut self, other: Units) -> Units {
        let mut carry = 0;
        for (limb, other) in self.0.iter_mut().zip(other.0) {
            let sum = u128::from(*limb) + u128::from(other) + carry;
            (*limb, carry) = (sum as u64, sum >> 64);
        }
        assert_eq!(carry, 0);
        self
    }

    fn minus(mut self, other: Units) -> Units {
        let mut owed = 0;
        for (limb, other) in self.0.iter_mut().zip(other.0) {
            let taken = u128::from(other) + owed;
            owed = u128::from(u128::from(*limb) < taken);
            *limb = ((owed << 64) + u128::from(*limb) - taken) as u64;
        }
        assert_eq!(owed, 0);
        self
    }

    fn is_zero(&self) -> bool {
        self.0 == [0; 9]
    }

    /// How many binary digits it has.
    fn len(&self) -> u32 {
        let top = (0..9).rev().find(|&n| self.0[n] != 0);
        top.map_or(0, |n| 64 * (n as u32 + 1) - self.0[n].leading_zeros())
    }

    /// The digits from place `from` up, as far as a limb holds them.
    fn digits(&self, from: u32) -> u64 {
        let limb = (from / 64) as usize;
        let high = self.0.get(limb + 1).copied().unwrap_or(0);
        ((u128::from(high) << 64 | u128::from(self.0[limb])) >> (from % 64)) as u64
    }
}

impl Ord for Units {
    fn cmp(&self, other: &Units) -> Ordering {
        self.0.iter().rev().cmp(other.0.iter().rev())
    }
}

impl PartialOrd for Units {
    fn partial_cmp(&self, other: &Units) -> Option<Ordering> {
        Some(self.cmp(other))
    }
}

/// Where an exact number lies between the two floats around it.
#[derive(Clone, Copy, PartialEq, Eq)]
pub enum Place {
    /// It is a float.
    Float,
    /// It is half way: the even float is taken.
    Middle,
    /// It is less than 1 / 4,096 of the step off the middle.
    Beside,
    Elsewhere,
}

/// The float nearest to n, `None` where that is 2^128 or more.
fn nearest(n: Units) -> (Option<u32>, Place) {
    if n >= Units::of_float(BEYOND) {
        return (None, Place::Elsewhere);
    }
    let below = float_below(n);
    let (low, high) = (Units::of_float(below), Units::of_float(below + 1));
    // That these two are the neighbours is not taken on trust.
    assert!(low <= n && n < high);
    let (twice, both) = (n.plus(n), low.plus(high));
    let (bits, off) = match twice.cmp(&both) {
        Ordering::Less => (below, both.minus(twice)),
        Ordering::Equal => (below + below % 2, both.minus(twice)),
        Ordering::Greater => (below + 1, twice.minus(both)),
    };
    let place = if n == low {
        Place::Float
    } else if off.is_zero() {
        Place::Middle
    } else if off.len() + 11 < high.minus(low).len() {
        Place::Beside
    } else {
        Place::Elsewhere
    };
    ((bits < BEYOND).then_some(bits), place)
}

/// The pattern of the largest float that is at most n, for n below 2^128: its leading 24 digits, or its digits from 2^-149 up.
fn float_below(n: Units) -> u32 {
    // The place of 2^-149 is 149, and 2^-126 has 173 digits.
    match n.len().checked_sub(173) {
        None => n.digits(149) as u32,
        Some(more) => (more << 23) + n.digits(149 + more) as u32,
    }
}

/// a * b + c and what is worth counting about it.
pub struct Fused {
    pub bits: Option<u32>,
    pub place: Place,
    /// Unlike signs took away at least 20 leading digits of the larger term, or all.
    pub cancelled: bool,
    /// The larger term alone is half way between two floats, and the other, at least 40 digits shorter, says which.
    pub settled: bool,
}

/// a * b + c of the floats with these bits, rounded once.
pub fn fused(a: u32, b: u32, c: u32) -> Fused {
    if [a, b, c].iter().any(|bits| bits & BEYOND == BEYOND) {
        return Fused {
            bits: None,
            place: Place::Elsewhere,
            cancelled: false,
            settled: false,
        };
    }
    let ((m, e), (n, d)) = (parts(a), parts(b));
    let (product, addend) = (Units::new(m * n, e + d), Units::of_float(c));
    let (product_sign, addend_sign) = ((a ^ b) >> 31, c >> 31);
    let unlike = product_sign != addend_sign;
    let (large, small, sign) = match product.cmp(&addend) {
        Ordering::Greater => (product, addend, product_sign),
        Ordering::Less => (addend, product, addend_sign),
        // Equal terms of unlike signs make +0.
        Ordering::Equal => (product, addend, product_sign & addend_sign),
    };
    let sum = if unlike {
        large.minus(small)
    } else {
        large.plus(small)
    };
    let (bits, place) = nearest(sum);
    Fused {
        bits: bits.map(|bits| sign << 31 | bits),
        place,
        cancelled: unlike && !small.is_zero() && sum.len() + 20 <= large.len(),
        settled: !small.is_zero()
            && small.len() + 40 <= large.len()
            && nearest(large).1 == Place::Middle,
    }
}

/// Whether r is the float nearest to the root of x, both of them above 0 and finite: the middles between r and its neighbours, squared, enclose x.
/// A root is never a middle, so the bounds are strict.
pub fn is_root(x: u32, r: u32) -> bool {
    if !(1..BEYOND - 1).contains(&r) {
        return false;
    }
    // In whole numbers of 2^unit, where the three floats are whole; the two sums are twice the middles, so their squares are held against 4x.
    let unit = parts(r - 1).1;
    let whole = |bits| {
        let (m, e) = parts(bits);
        u128::from(m) << (e - unit)
    };
    let (low, high) = (whole(r - 1) + whole(r), whole(r) + whole(r + 1));
    let (m, e) = parts(x);
    // A shift beyond these is a square far from low^2, and 24 digits of m leave room for 100.
    let shift = e + 2 - 2 * unit;
    (0..=100).contains(&shift) && {
        let four = u128::from(m) << shift;
        low * low < four && four < high * high
    }
}
