//! Samples from a file or from standard input.

use std::fs::File;
use std::io::{self, Read};
use std::os::fd::AsFd;

use super::options::{Format, Source};

/// The longest stream.
const MOST: u64 = 1 << 40;

pub struct Input {
    name: String,
    /// Standard input is read by its descriptor: Rust's own takes one that cannot be read for one that has ended.
    from: Box<dyn Read>,
    format: Format,
    /// Samples of a file whose length is known: what is added to it later is not read.
    total: Option<u64>,
    received: u64,
    bytes: Vec<u8>,
}

impl Format {
    fn bytes(self) -> usize {
        match self {
            Format::S16 => 2,
            Format::F32 => 4,
        }
    }

    fn name(self) -> &'static str {
        match self {
            Format::S16 => "s16",
            Format::F32 => "f32",
        }
    }
}

/// The kind of a sound file that is not raw samples, by its first bytes.
fn other_kind(bytes: &[u8]) -> Option<&'static str> {
    let tag = |at: usize, tag: &[u8]| bytes.get(at..).is_some_and(|rest| rest.starts_with(tag));
    if tag(0, b"RIFF") && tag(8, b"WAVE") {
        Some("WAV")
    } else if tag(0, b"FORM") && (tag(8, b"AIFF") || tag(8, b"AIFC")) {
        Some("AIFF")
    } else if tag(0, b"fLaC") {
        Some("FLAC")
    } else if tag(0, b"OggS\0") {
        Some("Ogg")
    } else {
        None
    }
}

impl Input {
    /// # Errors
    ///
    /// A sentence where the file cannot be read, is too long, or its length is no whole number of samples.
    pub fn open(source: &Source, format: Format) -> Result<Input, String> {
        let path = match source {
            Source::File(path) => path,
            Source::StandardInput => {
                let from = io::stdin().as_fd().try_clone_to_owned();
                let from =
                    from.map_err(|error| format!("standard input cannot be read: {error}"))?;
                return Ok(Input::new(
                    "standard input".into(),
                    File::from(from),
                    format,
                    None,
                ));
            }
        };
        let name = format!("'{}'", path.display());
        let file = File::open(path).map_err(|error| format!("{name} cannot be opened: {error}"))?;
        let about = file.metadata();
        let about = about.map_err(|error| format!("{name} cannot be read: {error}"))?;
        if about.is_dir() {
            return Err(format!("{name} is a folder"));
        }
        if !about.is_file() {
            return Ok(Input::new(name, file, format, None));
        }
        let len = about.len();
        let input = Input::new(
            name,
            file.take(len),
            format,
            Some(len / format.bytes() as u64),
        );
        if len % format.bytes() as u64 != 0 {
            return Err(input.odd(len));
        }
        if len / format.bytes() as u64 > MOST {
            return Err(format!("{} has more than 2^40 samples", input.name));
        }
        Ok(input)
    }

    fn new(name: String, from: impl Read + 'static, format: Format, total: Option<u64>) -> Input {
        Input {
            name,
            from: Box::new(from),
            format,
            total,
            received: 0,
            bytes: Vec::new(),
        }
    }

    pub fn total(&self) -> Option<u64> {
        self.total
    }

    fn odd(&self, bytes: u64) -> String {
        format!(
            "{} has {bytes} bytes, which is no whole number of {} samples of {} bytes",
            self.name,
            self.format.name(),
            self.format.bytes()
        )
    }

    /// The next block: that many samples, fewer only at the end, none past it. It waits for a whole block, so that rows do not depend on how the sound
    /// happens to arrive.
    ///
    /// # Errors
    ///
    /// A sentence where reading fails, a file has become shorter, the sound ends inside a sample or is of another kind. The samples before that are in the
    /// block all the same.
    pub fn next_block(&mut self, block: usize, samples: &mut Vec<f32>) -> Result<(), String> {
        let size = self.format.bytes();
        self.bytes.clear();
        samples.clear();
        let wanted = (block * size) as u64;
        let read = self.from.by_ref().take(wanted).read_to_end(&mut self.bytes);
        if let Some(kind) = other_kind(&self.bytes).filter(|_| self.received == 0) {
            return Err(format!(
                "{} is a {kind} file, not raw samples: 'fallowcart --help' says how to make them",
                self.name
            ));
        }
        match self.format {
            Format::S16 => {
                let words = self.bytes.as_chunks().0.iter();
                samples.extend(words.map(|bytes| f32::from(i16::from_le_bytes(*bytes)) / 32_768.0));
            }
            Format::F32 => {
                let words = self.bytes.as_chunks().0.iter();
                samples.extend(words.map(|bytes| f32::from_le_bytes(*bytes)));
            }
        }
        let before = self.received;
        self.received += samples.len() as u64;
        read.map_err(|error| format!("{} cannot be read: {error}", self.name))?;
        if !self.bytes.len().is_multiple_of(size) {
            return Err(self.odd(before * size as u64 + self.bytes.len() as u64));
        }
        match self.total {
            Some(total) if samples.len() < block && self.received < total => Err(format!(
                "{} has become shorter while it was read",
                self.name
            )),
            _ => Ok(()),
        }
    }
}
