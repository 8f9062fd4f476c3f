//! What a call costs: the port's `mul_add` and `sqrt` beside `f32::mul_add` and `f32::sqrt`.
//!
//! Each of the four is called through a pointer that the compiler cannot see through, from the same loop over the same operands, so nothing is
//! inlined or vectorised, and the loop and the call are in every figure; a line says what they cost alone. The port's figure holds the door's call
//! and the `Option`. `f32::mul_add` is rustc's own function, which jumps to the processor's instruction where there is one; `f32::sqrt` is an
//! instruction. The calls do not wait for each other. Rounds alternate between the two sides, and the median round counts.

#[path = "../tests/common/random.rs"]
mod random;

use std::hint::black_box;
use std::time::Instant;

use random::Random;

const INPUTS: usize = 4_096;
const ROUNDS: usize = 101;

type Call<T> = fn(f32, f32, f32) -> T;

fn nothing(a: f32, _: f32, _: f32) -> f32 {
    a
}

fn port_mul_add(a: f32, b: f32, c: f32) -> Option<f32> {
    fallowcart::float::mul_add(a, b, c)
}

fn machine_mul_add(a: f32, b: f32, c: f32) -> f32 {
    a.mul_add(b, c)
}

fn port_sqrt(x: f32, _: f32, _: f32) -> Option<f32> {
    fallowcart::float::sqrt(x)
}

fn machine_sqrt(x: f32, _: f32, _: f32) -> f32 {
    x.sqrt()
}

/// Nanoseconds of a call in one round.
#[inline(never)]
fn round<T>(call: Call<T>, inputs: &[[f32; 3]]) -> f64 {
    let call = black_box(call);
    let start = Instant::now();
    for &[a, b, c] in inputs {
        black_box(call(a, b, c));
    }
    start.elapsed().as_secs_f64() * 1e9 / inputs.len() as f64
}

fn median(mut rounds: Vec<f64>) -> f64 {
    rounds.sort_by(f64::total_cmp);
    rounds[rounds.len() / 2]
}

fn compare<P, M>(name: &str, inputs: &[[f32; 3]], port: Call<P>, machine: Call<M>) {
    let (mut ports, mut machines) = (Vec::new(), Vec::new());
    // The first round only warms up.
    for n in 0..=ROUNDS {
        let (p, m) = (round(port, inputs), round(machine, inputs));
        if n > 0 {
            ports.push(p);
            machines.push(m);
        }
    }
    let (port, machine) = (median(ports), median(machines));
    println!(
        "{name:<24} {port:>8.1} {machine:>8.1} {:>8.1}",
        port / machine
    );
}

fn inputs(mut one: impl FnMut(&mut Random) -> [f32; 3]) -> Vec<[f32; 3]> {
    let mut random = Random::new(0);
    (0..INPUTS).map(|_| one(&mut random)).collect()
}

/// From -1 to 1, on the grid of 16-bit sound.
fn sample(random: &mut Random) -> f32 {
    f32::from(random.word() as i16) / 32_768.0
}

fn main() {
    // As the pre-emphasis and the high-pass filter of the original call it.
    let emphasis = inputs(|random| [0.97, -sample(random), sample(random)]);
    let filter = inputs(|random| [-1.972_234, sample(random), 0.972_613 * sample(random)]);
    // A filter's tail after the sound has stopped.
    let silence = inputs(|random| {
        let small = |random: &mut Random| f32::from_bits(random.word() as u32 & 0x80ff_ffff);
        [0.97, small(random), small(random)]
    });
    let bits = inputs(|random| [(); 3].map(|()| f32::from_bits(random.word() as u32)));
    let powers = inputs(|random| [sample(random).powi(2), 0.0, 0.0]);
    let small = inputs(|random| [f32::from_bits(random.word() as u32 & 0x7f_ffff), 0.0, 0.0]);

    println!(
        "ns a call, through a pointer, independent calls; the median of {ROUNDS} rounds of {INPUTS}"
    );
    let alone = (0..ROUNDS).map(|_| round(nothing, &bits)).collect();
    println!("the loop and the call alone: {:.1}", median(alone));
    println!("{:<24} {:>8} {:>8} {:>8}", "", "port", "machine", "ratio");
    compare(
        "mul_add, pre-emphasis",
        &emphasis,
        port_mul_add,
        machine_mul_add,
    );
    compare("mul_add, filter", &filter, port_mul_add, machine_mul_add);
    compare(
        "mul_add, subnormals",
        &silence,
        port_mul_add,
        machine_mul_add,
    );
    compare("mul_add, random bits", &bits, port_mul_add, machine_mul_add);
    compare("sqrt, powers of sound", &powers, port_sqrt, machine_sqrt);
    compare("sqrt, subnormals", &small, port_sqrt, machine_sqrt);
    compare("sqrt, random bits", &bits, port_sqrt, machine_sqrt);
}
