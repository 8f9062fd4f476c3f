//! A detector in memory of the test's own, reached only through the C door.

use fallowcart::layout::{FLOATS, LONGEST_FRAME, LONGEST_WARMUP, NUMBERS, float, number};
use fallowcart::{VadConfig, raw};

#[derive(Clone)]
pub struct Memory {
    pub numbers: Vec<u64>,
    pub floats: Vec<f32>,
}

/// A reading of the door.
pub type Reading = fn(&[u64], &[f32]) -> u64;

/// What the six readings answer.
pub struct Readings {
    pub undecided: u64,
    pub analyzed: u64,
    /// Where the open segment starts.
    pub open: Option<u64>,
    pub rows: u64,
    pub talk: u64,
    pub floor: u32,
}

/// Refusal and what it carries.
pub fn unpacked(answer: u64) -> (u32, u64) {
    ((answer & 0xff) as u32, answer >> 8)
}

impl Memory {
    /// Each place its own number, so that anything written shows.
    pub fn old() -> Memory {
        let numbers = (0..NUMBERS as u64).map(|n| 0xdead_0000_0000_0000 | n);
        let floats = (0..FLOATS as u32).map(|n| f32::from_bits(0xdead_0000 | n));
        Memory {
            numbers: numbers.collect(),
            floats: floats.collect(),
        }
    }

    pub fn zeros() -> Memory {
        Memory {
            numbers: vec![0; NUMBERS],
            floats: vec![0.0; FLOATS],
        }
    }

    pub fn open(&mut self, config: &VadConfig, window: &[f32], rise: f32) -> u64 {
        raw::vad_open(
            &(*config).into(),
            window,
            rise,
            &mut self.numbers,
            &mut self.floats,
        )
    }

    pub fn detect(&mut self, samples: &[f32], rows: &mut [u64]) -> u64 {
        raw::vad_detect(&mut self.numbers, &mut self.floats, samples, rows)
    }

    pub fn flush(&mut self, rows: &mut [u64]) -> u64 {
        raw::vad_flush(&mut self.numbers, &mut self.floats, rows)
    }

    pub fn reset(&mut self, start: u64) -> u64 {
        raw::vad_reset(&mut self.numbers, &mut self.floats, start)
    }

    /// All that can be read of a sound state.
    pub fn readings(&self) -> Readings {
        let read = |reading: Reading| {
            let (refusal, value) = unpacked(reading(&self.numbers, &self.floats));
            assert_eq!(refusal, 0, "a reading");
            value
        };
        Readings {
            undecided: read(raw::vad_undecided_from),
            analyzed: read(raw::vad_analyzed_until),
            open: read(raw::vad_active_segment_start_sample).checked_sub(1),
            rows: read(raw::vad_rows_reported),
            talk: read(raw::vad_talk_samples),
            floor: read(raw::vad_noise_floor) as u32,
        }
    }

    pub fn same(&self, other: &Memory) -> bool {
        let bits = |memory: &Memory| {
            memory
                .floats
                .iter()
                .map(|x| x.to_bits())
                .collect::<Vec<_>>()
        };
        self.numbers == other.numbers && bits(self) == bits(other)
    }

    /// Little endian, as a hub would write it to disk.
    pub fn stored(&self) -> Vec<u8> {
        let numbers = self.numbers.iter().flat_map(|n| n.to_le_bytes());
        numbers
            .chain(self.floats.iter().flat_map(|x| x.to_le_bytes()))
            .collect()
    }

    pub fn restore(&mut self, bytes: &[u8]) {
        let (numbers, floats) = bytes.split_at(8 * NUMBERS);
        for (number, bytes) in self.numbers.iter_mut().zip(numbers.as_chunks().0) {
            *number = u64::from_le_bytes(*bytes);
        }
        for (float, bytes) in self.floats.iter_mut().zip(floats.as_chunks().0) {
            *float = f32::from_le_bytes(*bytes);
        }
    }

    /// Whether zeros stand past the window, the carry and the energies held.
    pub fn zeros_past(&self) -> bool {
        let arrays = [
            (float::WINDOW, number::FRAME_LENGTH, LONGEST_FRAME),
            (float::CARRY, number::CARRY_LEN, LONGEST_FRAME),
            (float::WARMUP, number::HELD, LONGEST_WARMUP),
        ];
        let parts = arrays.map(|(at, used, length)| {
            let used = self.numbers[used] as usize;
            at + used..at + length
        });
        parts
            .into_iter()
            .all(|part| self.floats[part].iter().all(|x| x.to_bits() == 0))
    }

    pub fn received(&self) -> u64 {
        self.numbers[number::PROCESSED_SAMPLES]
    }

    pub fn warming(&self) -> bool {
        self.numbers[number::WARMING] == 1
    }

    /// Frames, loud and quiet ones, and rows of the latest call that was not refused.
    pub fn counted(&self) -> [u64; 4] {
        [number::FRAMES, number::LOUD, number::QUIET, number::ROWS].map(|place| self.numbers[place])
    }
}
