//! The recording of examples/, 16 s at 16,000 samples a second.

pub fn breakfast() -> Vec<f32> {
    let path = concat!(env!("CARGO_MANIFEST_DIR"), "/../examples/breakfast.s16");
    let bytes = std::fs::read(path).expect("the example");
    let (words, rest) = bytes.as_chunks();
    assert!(rest.is_empty(), "whole samples");
    words
        .iter()
        .map(|word| f32::from(i16::from_le_bytes(*word)) / 32_768.0)
        .collect()
}
