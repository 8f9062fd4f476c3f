//! The score of the port against the confidence of the original: `ratio.log10().clamp(0.0, 1.0)`.

use std::process::Command;

/// The thresholds as the port's source has them.
fn thresholds() -> Vec<u32> {
    let source = include_str!("../../crates/score/src/thresholds.rt");
    let table = source
        .split("= [")
        .nth(1)
        .unwrap()
        .split("];")
        .next()
        .unwrap();
    let entry = |word: &str| u32::from_str_radix(&word.trim()[2..].replace('_', ""), 16).unwrap();
    table
        .split(',')
        .filter(|word| !word.trim().is_empty())
        .map(entry)
        .collect()
}

fn score(table: &[u32], ratio: f32) -> usize {
    table
        .partition_point(|&bits| f32::from_bits(bits) <= ratio)
        .saturating_sub(1)
}

#[test]
fn the_sources_hold_the_exact_table() {
    let script = concat!(env!("CARGO_MANIFEST_DIR"), "/../tools/score_table.py");
    let run = Command::new("python3")
        .args([script, "--check"])
        .output()
        .expect("python3");
    assert!(
        run.status.success(),
        "{}",
        String::from_utf8_lossy(&run.stderr)
    );
}

/// Every f32 from 0.5 to 20, which covers all that score other than 0 and 1,024.
///
/// By log10 in f64 the score is never off by a whole 1,024th. By the f32 log10 of the original it is in a few places just below a threshold:
/// there log10 itself rounds up to the next 1,024th, which the ratio does not reach.
#[test]
fn score_follows_log10() {
    let table = thresholds();
    assert_eq!(table.len(), 1025);
    let (mut tried, mut rounded_up, mut farthest, mut largest) = (0u32, 0u32, 0, 0f32);
    for bits in 0.5f32.to_bits()..=20f32.to_bits() {
        let ratio = f32::from_bits(bits);
        let score = score(&table, ratio);
        let exact = 1024.0 * f64::from(ratio).log10().clamp(0.0, 1.0) - score as f64;
        assert!(
            (0.0..1.0).contains(&exact),
            "{ratio}: score {score} is {exact} below"
        );
        let original = 1024.0 * ratio.log10().clamp(0.0, 1.0) - score as f32;
        assert!(
            original >= 0.0,
            "{ratio}: score {score} is {original} below"
        );
        largest = largest.max(original);
        if original >= 1.0 {
            if rounded_up == 0 {
                println!("the first that log10 rounds up: {ratio}, bits {bits:#x}");
            }
            rounded_up += 1;
            farthest = farthest.max(table[score + 1] - bits);
        }
        tried += 1;
    }
    println!(
        "{tried} ratios; log10 rounds up to the next 1,024th at {rounded_up}, at most {farthest} floats below it"
    );
    println!("the largest distance is {largest} / 1,024");
    assert!(farthest <= 4 && largest < 1.0001);
}
