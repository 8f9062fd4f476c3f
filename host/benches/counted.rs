//! One side's detector or filter over the recording of examples/, for `tools/instructions` to count: `counted detect port 160 2` hears it twice in blocks of
//! 160 and prints how many samples one round has. Blocks of 0 are calls without a sample; then a round is a thousand calls, and that is printed.

#[path = "../tests/common/breakfast.rs"]
mod breakfast;
#[path = "../tests/common/for_original.rs"]
mod for_original;

use std::hint::black_box;

use fallowcart::{Detector, Filter, PreprocessingConfig, VadConfig};
use for_original::ForOriginal;
use speech_prep::preprocessing::DcHighPassFilter;

const CALLS: usize = 1_000;

/// What a side does with a block.
type Hear = Box<dyn FnMut(&[f32])>;

fn side(what: &str, side: &str) -> Hear {
    let vad = VadConfig::default();
    let filter = PreprocessingConfig::default();
    match (what, side) {
        ("detect", "port") => {
            let mut port = Detector::new(vad).expect("accepted");
            Box::new(move |samples| {
                black_box(port.detect(samples).expect("accepted"));
            })
        }
        ("detect", "original") => {
            let config = vad.for_original();
            let original = speech_prep::VadDetector::new(config).expect("accepted");
            Box::new(move |samples| {
                black_box(original.detect(samples).expect("accepted"));
            })
        }
        ("filter", "port") => {
            let mut port = Filter::new(filter).expect("accepted");
            let mut output = vec![0.0; 1_024];
            Box::new(move |samples| {
                let output = &mut output[..samples.len()];
                port.process(samples, None, output).expect("accepted");
                black_box(output);
            })
        }
        ("filter", "original") => {
            let config = filter.for_original();
            let mut original = DcHighPassFilter::new(config).expect("accepted");
            Box::new(move |samples| {
                black_box(original.process(samples, None).expect("accepted"));
            })
        }
        _ => panic!("detect or filter, port or original"),
    }
}

fn main() {
    let words: Vec<String> = std::env::args().skip(1).collect();
    let [what, whose, block, rounds, ..] = &words[..] else {
        println!("see tools/instructions");
        return;
    };
    let block: usize = block.parse().expect("a block's samples");
    let rounds: usize = rounds.parse().expect("how many rounds");
    let sound = breakfast::breakfast();
    let mut hear = side(what, whose);
    if block == 0 {
        // Past the warm-up, with a carry.
        sound[..40_001].chunks(1_024).for_each(&mut hear);
        for _ in 0..rounds * CALLS {
            hear(&[]);
        }
        println!("{CALLS}");
    } else {
        for _ in 0..rounds {
            sound.chunks(block).for_each(&mut hear);
        }
        println!("{}", sound.len());
    }
}
