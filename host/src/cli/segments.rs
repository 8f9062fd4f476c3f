//! `fallowcart segments`: filter and detector over a recording, block by block.

use std::fs::File;
use std::io::{self, Write};
use std::os::fd::AsFd;

use fallowcart::{Detected, Detector, Filter, Refusal};

use super::input::Input;
use super::options::{Job, Source, named};
use super::progress::Progress;
use super::table;
use super::time::{clock, length};

pub enum Failure {
    /// A sentence for the person who called.
    Said(String),
    /// Whoever read the table has stopped reading.
    ReaderGone,
}

impl From<String> for Failure {
    fn from(message: String) -> Failure {
        Failure::Said(message)
    }
}

/// Written by the descriptor: Rust's own standard output takes one that cannot be written for one that was.
pub fn print(text: &str) -> Result<(), Failure> {
    let out = io::stdout().as_fd().try_clone_to_owned().map(File::from);
    let done = out.and_then(|mut out| out.write_all(text.as_bytes()));
    done.map_err(|error| match error.kind() {
        io::ErrorKind::BrokenPipe => Failure::ReaderGone,
        _ => Failure::Said(format!("standard output cannot be written: {error}")),
    })
}

/// Lines of the table, the names of the columns before the first. A stream's are printed at once; a file's are kept until the file was read to its end.
struct Out {
    tsv: bool,
    at_once: bool,
    begun: bool,
    kept: String,
}

impl Out {
    fn line(&mut self, line: &str) -> Result<(), Failure> {
        let head = if self.begun {
            ""
        } else {
            table::head(self.tsv)
        };
        self.begun = true;
        let text = format!("{head}{line}");
        if self.at_once {
            return print(&text);
        }
        self.kept.push_str(&text);
        Ok(())
    }

    fn rows(&mut self, found: &Detected) -> Result<(), Failure> {
        let mut rows = found.segments.iter();
        rows.try_for_each(|row| self.line(&table::row(self.tsv, row)))
    }
}

/// Filter and detector, as asked.
struct Chain {
    filter: Option<Filter>,
    filtered: Vec<f32>,
    detector: Detector,
    rate: u32,
    received: u64,
}

impl Chain {
    fn open(job: &Job) -> Result<Chain, String> {
        let said = |refusal: Refusal| format!("{}: {refusal}", named(refusal.number()));
        Ok(Chain {
            filter: job.filter.map(Filter::new).transpose().map_err(said)?,
            filtered: vec![0.0; job.block],
            detector: Detector::new(job.detector).map_err(said)?,
            rate: job.detector.sample_rate,
            received: 0,
        })
    }

    fn hear(&mut self, samples: &[f32]) -> Result<Detected, String> {
        let block = match &mut self.filter {
            None => samples,
            Some(filter) => {
                if let Err(refusal) = filter.process(samples, None, &mut self.filtered) {
                    return Err(self.refused("", refusal));
                }
                &self.filtered[..samples.len()]
            }
        };
        let found = self.detector.detect(block).map_err(|refusal| {
            let filtered = self.filter.is_some();
            self.refused(if filtered { " once filtered" } else { "" }, refusal)
        })?;
        self.received += samples.len() as u64;
        Ok(found)
    }

    /// A sample is named by its place in the recording, not in the block.
    fn refused(&self, after: &str, refusal: Refusal) -> String {
        let Some(place) = refusal.place() else {
            return refusal.to_string();
        };
        let sample = self.received + place as u64;
        let time = clock(length(sample, self.rate));
        let what = match refusal.number() {
            26 => "makes the filter overflow",
            _ => "is not finite, or its magnitude is above 65,536",
        };
        let number = refusal.number();
        format!("sample {sample}, at {time} of the recording,{after} {what} (refusal {number})")
    }
}

pub fn run(job: &Job) -> Result<(), Failure> {
    let mut chain = Chain::open(job)?;
    let mut input = Input::open(&job.source, job.format)?;
    let mut out = Out {
        tsv: job.tsv,
        at_once: job.source == Source::StandardInput,
        begun: false,
        kept: String::new(),
    };
    let ended = hear_all(job, &mut chain, &mut input, &mut out);
    // Whatever ended a stream, nothing of what was heard is lost. A file that cannot be used has no table.
    if let Err(Failure::Said(_)) = ended
        && out.at_once
    {
        finish(&mut chain, &mut out)?;
    }
    ended?;
    finish(&mut chain, &mut out)?;
    if job.tsv {
        out.line("")?;
    } else {
        let detector = &chain.detector;
        let counts = (detector.rows_reported(), detector.talk_samples());
        let (Ok(rows), Ok(talk)) = counts else {
            return Err(Failure::Said("the detector's state is malformed".into()));
        };
        out.line(&table::summary(rows, talk, chain.received, chain.rate))?;
    }
    print(&out.kept)
}

fn hear_all(job: &Job, chain: &mut Chain, input: &mut Input, out: &mut Out) -> Result<(), Failure> {
    let mut progress = Progress::new(input.total(), chain.rate);
    let mut samples = Vec::with_capacity(job.block);
    let mut rows = 0;
    loop {
        let read = input.next_block(job.block, &mut samples);
        if !samples.is_empty() {
            let found = chain.hear(&samples)?;
            rows += found.segments.len();
            out.rows(&found)?;
        }
        read?;
        if samples.len() < job.block {
            return Ok(());
        }
        if let Some(progress) = &mut progress {
            progress.at(chain.received, rows);
        }
    }
}

fn finish(chain: &mut Chain, out: &mut Out) -> Result<(), Failure> {
    let found = chain.detector.flush();
    let found = found.map_err(|refusal| Failure::Said(refusal.to_string()))?;
    out.rows(&found)
}
