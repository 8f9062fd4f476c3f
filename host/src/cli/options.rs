//! What was typed.

use std::collections::BTreeSet;
use std::ffi::OsString;
use std::path::PathBuf;

use fallowcart::{Detector, HighpassOrder, PreprocessingConfig, VadConfig};

use super::time::{parse_duration, parse_nanos};

pub const HELP: &str = "\
fallowcart finds speech in a recording and prints where it begins and ends.

  fallowcart segments FILE [OPTION..]    a recording in a file
  fallowcart segments - [OPTION..]       one as it comes on standard input
  fallowcart --help, fallowcart --version

The recording is raw mono samples, little endian. To make one from another kind:

  sox talk.wav -t raw -e signed -b 16 -L -c 1 -r 16000 talk.s16

What is read and printed:
  --rate HZ                 samples a second, 8000 to 48000         [16000]
  --format s16|f32          signed 16-bit numbers, of which 32,768
                            is full scale, or 32-bit floats, of
                            which 1 is                              [s16]
  --block N                 samples a call, 1 to 1024; where rows
                            end can depend on it, and small ones
                            are slow                                [1024]
  --tsv                     a table for programs: times in ns, numbers in full

The detector. A TIME has a unit: ns, us, ms or s. Energy is the root mean square
of a frame, after pre-emphasis and windowing.
  --frame-duration TIME     length of a frame, at most 2,048
                            samples                                 [20ms]
  --frame-overlap X         of neighbouring frames, in [0,1); at
                            most 300 frames may begin in 0.3 s      [0.5]
  --pre-emphasis X|off      the a of y[n] = x[n] - a x[n-1], in
                            [0,1)                                   [0.97]
  --activation-ratio X      times the background's energy that
                            begin a segment, at least the next      [2.5]
  --release-ratio X         times the background's energy that go
                            on with it, at least 1                  [1.3]
  --min-speech-energy X     frames of less are never speech         [0.0005]
  --noise-smoothing X       how slowly the background is followed
                            in silence, in [0,1)                    [0.85]
  --energy-floor X          the background's least energy, above 0  [0.0001]
  --hangover-frames N       quiet frames that a segment lives
                            through, at most 10000                  [20]
  --speech-padding TIME     sound added at both ends, at most 1s    [50ms]
  --min-speech-frames N     least loud frames of a segment that is
                            printed, 1 to 10000                     [3]
  --stream-start-time TIME  when the recording begins, below 2^63ns [0s]

The filter, which is off:
  --filter                  take away a constant bias, then low rumble, first
  --highpass-cutoff-hz HZ   20 to below half the rate               [80]
  --highpass-order 2|4      12 or 24 dB an octave                   [4]
  --dc-bias-alpha X         how slowly the bias is followed, in
                            (0,1)                                   [0.95]
  --no-highpass             the bias alone
  --no-dc-removal           the high-pass alone

A row has its start and end with the padding, its length, its confidence (0: the
loud frames are at the background, 1: 20 dB or more above it), how many frames
were loud, and their mean energy. Rows are in order and never overlap; the last
line says how much of the recording they are. With --tsv the columns are named,
and there is no last line.

From standard input each row is printed as it closes. Of a file all are printed
once it has been read, so that nothing is printed of one that cannot be used.
Bad options, a file that cannot be read or samples out of range: a message and
status 2. After -- a word is a file, whatever it begins with.
";

#[derive(Debug, Clone, Copy, PartialEq)]
pub enum Format {
    S16,
    F32,
}

#[derive(Debug, PartialEq)]
pub enum Source {
    File(PathBuf),
    StandardInput,
}

#[derive(Debug, PartialEq)]
pub struct Job {
    pub source: Source,
    pub format: Format,
    pub block: usize,
    pub tsv: bool,
    pub detector: VadConfig,
    pub filter: Option<PreprocessingConfig>,
}

#[derive(Debug, PartialEq)]
pub enum Command {
    Help,
    Version,
    Segments(Box<Job>),
}

/// Options that stand alone; all others take a value.
const ALONE: [&str; 4] = ["--tsv", "--filter", "--no-highpass", "--no-dc-removal"];

/// Options that say nothing without `--filter`.
const OF_FILTER: [&str; 5] = [
    "--highpass-cutoff-hz",
    "--highpass-order",
    "--dc-bias-alpha",
    "--no-highpass",
    "--no-dc-removal",
];

pub fn parse(words: impl IntoIterator<Item = OsString>) -> Result<Command, String> {
    let mut words = words.into_iter();
    match words.next() {
        None => Err("say what to do: fallowcart segments FILE".into()),
        Some(word) if word == "--help" || word == "-h" || word == "help" => Ok(Command::Help),
        Some(word) if word == "--version" => Ok(Command::Version),
        Some(word) if word == "segments" => parse_segments(words),
        Some(word) => Err(format!(
            "'{}' is no command: fallowcart segments FILE",
            word.display()
        )),
    }
}

fn parse_segments(mut words: impl Iterator<Item = OsString>) -> Result<Command, String> {
    let mut source = None;
    let mut given = BTreeSet::new();
    let mut job = Job {
        source: Source::StandardInput,
        format: Format::S16,
        block: Detector::LONGEST_BLOCK,
        tsv: false,
        detector: VadConfig::default(),
        filter: None,
    };
    let mut filter = PreprocessingConfig::default();
    let mut filtered = false;
    let mut options_over = false;
    while let Some(word) = words.next() {
        if !options_over && word == "--" {
            options_over = true;
            continue;
        }
        let option = !options_over && word.as_encoded_bytes().starts_with(b"-") && word != "-";
        if !option {
            if source.is_some() {
                return Err(format!(
                    "one recording at a time: '{}' is a second one",
                    word.display()
                ));
            }
            source = Some(if word == "-" && !options_over {
                Source::StandardInput
            } else {
                Source::File(word.into())
            });
            continue;
        }
        let text = word
            .to_str()
            .ok_or_else(|| format!("there is no option '{}'", word.display()))?;
        let (name, value) = match text.split_once('=') {
            Some((name, value)) => (name, Some(value.to_string())),
            None => (text, None),
        };
        if name == "--help" || name == "-h" {
            return Ok(Command::Help);
        }
        if !given.insert(name.to_string()) {
            return Err(format!("{name} is given twice"));
        }
        if ALONE.contains(&name) {
            if value.is_some() {
                return Err(format!("{name} takes no value"));
            }
            match name {
                "--tsv" => job.tsv = true,
                "--filter" => filtered = true,
                "--no-highpass" => filter.enable_highpass = false,
                _ => filter.enable_dc_removal = false,
            }
            continue;
        }
        let setting = setting(name, &mut job, &mut filter)
            .ok_or_else(|| format!("there is no option '{name}'"))?;
        let value = match value {
            Some(value) => value,
            None => {
                let word = words
                    .next()
                    .ok_or_else(|| format!("{name} wants a value"))?;
                let text = word.to_str();
                text.ok_or_else(|| format!("{name}: '{}' cannot be read", word.display()))?
                    .into()
            }
        };
        setting
            .set(&value)
            .map_err(|message| format!("{name}: {message}"))?;
    }
    if let Some(name) = OF_FILTER
        .iter()
        .find(|name| !filtered && given.contains(**name))
    {
        return Err(format!("{name} says nothing without --filter"));
    }
    if filtered && !filter.enable_highpass && !filter.enable_dc_removal {
        return Err("--no-highpass and --no-dc-removal leave nothing to filter".into());
    }
    filter.sample_rate_hz = job.detector.sample_rate;
    job.filter = filtered.then_some(filter);
    job.source =
        source.ok_or("no recording is named: fallowcart segments FILE, or - for standard input")?;
    Ok(Command::Segments(Box::new(job)))
}

/// A place for an option's value.
enum Setting<'a> {
    Rate(&'a mut u32),
    Format(&'a mut Format),
    Block(&'a mut usize),
    Number(&'a mut f32),
    Maybe(&'a mut Option<f32>),
    Count(&'a mut usize),
    Duration(&'a mut std::time::Duration),
    Start(&'a mut u64),
    Order(&'a mut HighpassOrder),
}

fn setting<'a>(
    name: &str,
    job: &'a mut Job,
    filter: &'a mut PreprocessingConfig,
) -> Option<Setting<'a>> {
    let detector = &mut job.detector;
    Some(match name {
        "--rate" => Setting::Rate(&mut detector.sample_rate),
        "--format" => Setting::Format(&mut job.format),
        "--block" => Setting::Block(&mut job.block),
        "--frame-duration" => Setting::Duration(&mut detector.frame_duration),
        "--frame-overlap" => Setting::Number(&mut detector.frame_overlap),
        "--pre-emphasis" => Setting::Maybe(&mut detector.pre_emphasis),
        "--activation-ratio" => Setting::Number(&mut detector.activation_ratio),
        "--release-ratio" => Setting::Number(&mut detector.release_ratio),
        "--min-speech-energy" => Setting::Number(&mut detector.min_speech_energy),
        "--noise-smoothing" => Setting::Number(&mut detector.noise_smoothing),
        "--energy-floor" => Setting::Number(&mut detector.energy_floor),
        "--hangover-frames" => Setting::Count(&mut detector.hangover_frames),
        "--speech-padding" => Setting::Duration(&mut detector.speech_padding),
        "--min-speech-frames" => Setting::Count(&mut detector.min_speech_frames),
        "--stream-start-time" => Setting::Start(&mut detector.stream_start_time),
        "--highpass-cutoff-hz" => Setting::Number(&mut filter.highpass_cutoff_hz),
        "--highpass-order" => Setting::Order(&mut filter.highpass_order),
        "--dc-bias-alpha" => Setting::Number(&mut filter.dc_bias_alpha),
        _ => return None,
    })
}

impl Setting<'_> {
    /// What is a number at all is taken: the library says which ones it refuses.
    fn set(self, text: &str) -> Result<(), String> {
        match self {
            Setting::Rate(place) => *place = whole(text)?,
            Setting::Count(place) => *place = whole(text)?,
            Setting::Number(place) => *place = number(text)?,
            Setting::Maybe(place) => {
                *place = if text == "off" {
                    None
                } else {
                    Some(number(text)?)
                }
            }
            Setting::Duration(place) => *place = parse_duration(text)?,
            Setting::Start(place) => *place = parse_nanos(text)?,
            Setting::Format(place) => {
                *place = match text {
                    "s16" => Format::S16,
                    "f32" => Format::F32,
                    _ => return Err(format!("'{text}' is neither s16 nor f32")),
                }
            }
            Setting::Block(place) => {
                *place = whole(text)?;
                if !(1..=Detector::LONGEST_BLOCK).contains(place) {
                    return Err(format!(
                        "'{text}' is not from 1 to {}",
                        Detector::LONGEST_BLOCK
                    ));
                }
            }
            Setting::Order(place) => {
                *place = match text {
                    "2" => HighpassOrder::SecondOrder,
                    "4" => HighpassOrder::FourthOrder,
                    _ => return Err(format!("'{text}' is neither 2 nor 4")),
                }
            }
        }
        Ok(())
    }
}

fn whole<N: std::str::FromStr>(text: &str) -> Result<N, String> {
    text.parse()
        .map_err(|_| format!("'{text}' is no whole number, or too large a one"))
}

fn number(text: &str) -> Result<f32, String> {
    text.parse().map_err(|_| format!("'{text}' is no number"))
}

/// The options that the settings of a refusal come from.
pub fn named(refusal: u32) -> &'static str {
    match refusal {
        1 => "--rate",
        2 => "--frame-duration",
        3 => "--frame-overlap",
        4 => "--pre-emphasis",
        5 => "--release-ratio",
        6 => "--activation-ratio, --release-ratio",
        7 => "--min-speech-energy",
        8 => "--noise-smoothing",
        9 => "--energy-floor",
        10 => "--min-speech-frames",
        11 => "--rate, --frame-duration",
        12 => "--rate, --frame-duration, --frame-overlap",
        13 => "--speech-padding, --hangover-frames, --min-speech-frames, --stream-start-time",
        21 => "--highpass-cutoff-hz",
        22 | 24 => "--highpass-cutoff-hz, --rate",
        23 => "--dc-bias-alpha",
        _ => "the settings",
    }
}
