//! Demand 3's sentences, checked call by call over what the C door answers.

use std::collections::VecDeque;

use fallowcart::VadConfig;
use fallowcart::layout::{ROW_FIELDS, row};

use super::memory::{Memory, Readings};
use crate::common::for_original::ForOriginal;
use crate::common::original::{padding_samples, warmup_frames};

/// What was seen since the opening or the latest reset. The lengths are the original's, and no number of the port's state is asked for them.
pub struct Demand {
    hangover: u64,
    frame: u64,
    hop: u64,
    warmup: u64,
    padding: u64,
    /// A flush ended the warm-up.
    flushed: bool,
    received: u64,
    undecided: u64,
    /// Where the latest row ended.
    end: u64,
    rows: u64,
    talk: u64,
    /// Frames and loud frames of the latest calls, the latest first.
    frames: VecDeque<(u64, u64)>,
}

impl Demand {
    pub fn new(config: &VadConfig) -> Demand {
        let original = config.for_original();
        let hop = original.hop_length_samples().expect("accepted");
        Demand {
            hangover: config.hangover_frames as u64,
            frame: original.frame_length_samples().expect("accepted") as u64,
            hop: hop as u64,
            warmup: warmup_frames(hop, config.sample_rate) as u64,
            padding: padding_samples(config.speech_padding, config.sample_rate) as u64,
            flushed: false,
            received: 0,
            undecided: 0,
            end: 0,
            rows: 0,
            talk: 0,
            frames: VecDeque::new(),
        }
    }

    /// After an accepted call: a block of so many samples, or the stream's end, with these rows.
    pub fn call(
        &mut self,
        memory: &Memory,
        readings: &Readings,
        block: Option<usize>,
        rows: &[[u64; ROW_FIELDS]],
    ) {
        self.received += block.unwrap_or(0) as u64;
        self.flushed |= block.is_none();
        for fields in rows {
            let (start, end) = (fields[row::START_SAMPLE], fields[row::END_SAMPLE]);
            assert!(self.end <= start, "rows in order, never overlapping");
            assert!(start < end, "a row has sound");
            assert!(end <= self.received, "within the sound received");
            assert!(
                self.undecided <= start,
                "never before an undecided position given earlier"
            );
            self.end = end;
            self.rows += 1;
            self.talk += end - start;
        }
        let [frames, loud, quiet, reported] = memory.counted();
        assert_eq!((frames, reported), (loud + quiet, rows.len() as u64));
        self.frames.push_front((frames, loud));
        self.seen(memory, readings);
    }

    /// After any call, a refused one too.
    pub fn seen(&mut self, memory: &Memory, readings: &Readings) {
        let undecided = readings.undecided;
        assert!(self.undecided <= undecided, "the position never goes back");
        self.undecided = undecided;
        assert_eq!(memory.received(), self.received);
        assert_eq!(readings.rows, self.rows);
        assert_eq!(readings.talk, self.talk);

        let open = readings.open.is_some();
        let frames = (self.received + self.hop).saturating_sub(self.frame) / self.hop;
        let warmed_up = self.flushed || frames >= self.warmup;
        assert_eq!(
            memory.warming(),
            !warmed_up,
            "warm-up ends when its count is reached or a flush comes"
        );
        if warmed_up && !open {
            let trails = self.received - undecided;
            assert!(
                trails < self.frame + self.padding,
                "it trails the sound by less than a frame plus the padding"
            );
        }
        // The calls that hold the last hangover + 1 frames; what came before them is forgotten. Where calls judge at most one frame this is exact.
        let (mut frames, mut loud, mut calls) = (0, 0, 0);
        for call in &self.frames {
            if frames > self.hangover {
                break;
            }
            frames += call.0;
            loud += call.1;
            calls += 1;
        }
        assert!(!open || loud > 0, "open only if a late frame was loud");
        self.frames.truncate(calls);
    }
}
