//! The command line as a person runs it: what it prints, what it refuses and with which words.

use std::io::{BufRead, BufReader, Write};
use std::path::PathBuf;
use std::process::{Command, Output, Stdio};

use speech_prep::probe::Probe;

use crate::common::breakfast::breakfast;
use crate::common::{program, root};

fn fallowcart() -> Command {
    program(env!("CARGO_BIN_EXE_fallowcart"))
}

fn segments(words: &[&str]) -> Output {
    let output = fallowcart().arg("segments").args(words).output();
    output.expect("the program runs")
}

fn from_input(words: &[&str], bytes: &[u8]) -> Output {
    let mut child = fallowcart()
        .args(["segments", "-"])
        .args(words)
        .stdin(Stdio::piped())
        .stdout(Stdio::piped())
        .stderr(Stdio::piped())
        .spawn()
        .expect("the program runs");
    let mut stdin = child.stdin.take().expect("piped");
    let bytes = bytes.to_vec();
    // The program may end before it has read all, and then writing fails.
    let writer = std::thread::spawn(move || drop(stdin.write_all(&bytes)));
    let output = child.wait_with_output().expect("the program ends");
    writer.join().expect("the writer ends");
    output
}

fn text(bytes: &[u8]) -> String {
    String::from_utf8(bytes.to_vec()).expect("text")
}

fn printed(output: &Output) -> String {
    assert_eq!(text(&output.stderr), "", "nothing is said");
    assert!(output.status.success());
    text(&output.stdout)
}

/// Refused with these words, and nothing printed.
fn refused(output: &Output, message: &str) {
    assert_eq!(text(&output.stderr), format!("fallowcart: {message}\n"));
    assert_eq!(output.status.code(), Some(2));
    assert_eq!(text(&output.stdout), "");
}

fn example() -> PathBuf {
    root().join("examples/breakfast.s16")
}

fn file(name: &str, bytes: &[u8]) -> String {
    let path = PathBuf::from(env!("CARGO_TARGET_TMPDIR")).join(name);
    std::fs::write(&path, bytes).expect("a file");
    path.to_str().expect("a path").into()
}

fn floats(samples: &[f32]) -> Vec<u8> {
    samples
        .iter()
        .flat_map(|sample| sample.to_le_bytes())
        .collect()
}

fn shown(name: &str) -> String {
    let path = root().join("examples").join(name);
    std::fs::read_to_string(path).expect("what the example prints")
}

#[test]
fn the_example_prints_what_the_repository_shows() {
    let example = example();
    let example = example.to_str().expect("a path");
    assert_eq!(printed(&segments(&[example])), shown("breakfast.txt"));
    assert_eq!(
        printed(&segments(&[example, "--tsv"])),
        shown("breakfast.tsv")
    );
    assert_eq!(
        printed(&segments(&["--filter", "--tsv", example])),
        shown("breakfast-filtered.tsv")
    );
}

/// Each row's times and counts are the original's on the same samples, in the same blocks.
#[test]
fn the_example_s_rows_are_the_original_s() {
    let original = Probe::open(speech_prep::VadConfig::default()).expect("the original opens");
    let mut rows = Vec::new();
    for block in breakfast().chunks(1024) {
        rows.extend(original.detect(block).expect("heard").segments);
    }
    rows.extend(original.flush().expect("heard").segments);
    assert!(
        rows.len() > 3,
        "the example has several stretches of speech"
    );

    let table = shown("breakfast.tsv");
    let lines: Vec<Vec<&str>> = table
        .lines()
        .skip(1)
        .map(|line| line.split('\t').collect())
        .collect();
    assert_eq!(lines.len(), rows.len());
    for (line, row) in lines.iter().zip(&rows) {
        assert_eq!(line[2], row.start_time.nanos().to_string());
        assert_eq!(line[3], row.end_time.nanos().to_string());
        assert_eq!(line[6], row.frame_count.to_string());
        assert_eq!(line[7], row.avg_energy.to_string());
        let confidence: f32 = line[4].parse().expect("a number");
        assert!((confidence - row.confidence).abs() <= 0.002);
    }
}

#[test]
fn standard_input_and_floats_give_the_same_table() {
    let bytes = std::fs::read(example()).expect("the example");
    assert_eq!(
        printed(&from_input(&["--tsv"], &bytes)),
        shown("breakfast.tsv")
    );
    let bytes = floats(&breakfast());
    assert_eq!(
        printed(&from_input(&["--tsv", "--format", "f32"], &bytes)),
        shown("breakfast.tsv")
    );
    let path = file("breakfast.f32", &bytes);
    assert_eq!(
        printed(&segments(&[&path, "--tsv", "--format=f32"])),
        shown("breakfast.tsv")
    );
}

/// What is read in time; a row that is kept back fails here and does not hang.
fn in_time(lines: &std::sync::mpsc::Receiver<String>) -> String {
    let line = lines.recv_timeout(std::time::Duration::from_secs(60));
    line.expect("a line in time")
}

/// A row is there before the sound that follows it.
#[test]
fn a_row_is_printed_as_it_closes() {
    let bytes = std::fs::read(example()).expect("the example");
    let mut child = fallowcart()
        .args(["segments", "-", "--tsv"])
        .stdin(Stdio::piped())
        .stdout(Stdio::piped())
        .spawn()
        .expect("the program runs");
    let mut stdin = child.stdin.take().expect("piped");
    let stdout = BufReader::new(child.stdout.take().expect("piped"));
    let (sender, lines) = std::sync::mpsc::channel();
    std::thread::spawn(move || {
        for line in stdout.lines() {
            sender.send(line.expect("text")).expect("awaited");
        }
    });
    let (first, rest) = bytes.split_at(bytes.len() / 2 / 2048 * 2048);
    stdin.write_all(first).expect("read");
    let table = shown("breakfast.tsv");
    let mut expected = table.lines();
    for expected in expected.by_ref().take(2) {
        assert_eq!(in_time(&lines), expected);
    }
    stdin.write_all(rest).expect("read");
    drop(stdin);
    for expected in expected {
        assert_eq!(in_time(&lines), expected);
    }
    assert!(child.wait().expect("it ends").success());
}

#[test]
fn every_setting_reaches_the_detector_and_the_filter() {
    let example = example();
    let example = example.to_str().expect("a path");
    let usual = printed(&segments(&[example, "--tsv"]));
    for words in [
        &["--rate", "8000"][..],
        &["--frame-duration", "30ms"],
        &["--frame-overlap", "0.25"],
        &["--pre-emphasis", "off"],
        &["--activation-ratio", "12"],
        &["--release-ratio", "2.5"],
        &["--min-speech-energy", "0.02"],
        &["--noise-smoothing", "0.1"],
        &["--energy-floor", "0.004"],
        &["--hangover-frames", "2"],
        &["--speech-padding", "20ms"],
        &["--min-speech-frames", "90"],
        &["--stream-start-time", "1s"],
        &["--filter"],
    ] {
        let other = segments(&[&[example, "--tsv"], words].concat());
        assert_ne!(printed(&other), usual, "{words:?}");
    }
    // Where a segment's padding reaches past the sound that a small block has brought, its row ends there.
    let quick = [example, "--tsv", "--hangover-frames", "0"];
    let small = [&quick[..], &["--block", "160"]].concat();
    assert_ne!(printed(&segments(&small)), printed(&segments(&quick)));
    let filtered = printed(&segments(&[example, "--tsv", "--filter"]));
    for words in [
        &["--highpass-cutoff-hz", "900"][..],
        &["--highpass-order", "2"],
        &["--dc-bias-alpha", "0.1"],
        &["--no-highpass"],
        &["--no-dc-removal"],
    ] {
        let other = printed(&segments(
            &[&[example, "--tsv", "--filter"], words].concat(),
        ));
        assert_ne!(other, filtered, "{words:?}");
    }
}

#[test]
fn what_was_typed_wrong_is_said() {
    let more = |message: &str| format!("{message}\n'fallowcart --help' says more");
    let plain = fallowcart().output().expect("the program runs");
    refused(&plain, &more("say what to do: fallowcart segments FILE"));
    let unknown = fallowcart().arg("cut").output().expect("the program runs");
    refused(
        &unknown,
        &more("'cut' is no command: fallowcart segments FILE"),
    );
    for (words, message) in [
        (
            &[][..],
            "no recording is named: fallowcart segments FILE, or - for standard input",
        ),
        (&["a", "b"], "one recording at a time: 'b' is a second one"),
        (&["a", "--loud"], "there is no option '--loud'"),
        (&["a", "--rate"], "--rate wants a value"),
        (
            &["a", "--rate", "16k"],
            "--rate: '16k' is no whole number, or too large a one",
        ),
        (
            &["a", "--rate", "8000", "--rate=8000"],
            "--rate is given twice",
        ),
        (&["a", "--tsv=yes"], "--tsv takes no value"),
        (
            &["a", "--format", "wav"],
            "--format: 'wav' is neither s16 nor f32",
        ),
        (&["a", "--block", "0"], "--block: '0' is not from 1 to 1024"),
        (
            &["a", "--frame-overlap", "half"],
            "--frame-overlap: 'half' is no number",
        ),
        (
            &["a", "--frame-duration", "20"],
            "--frame-duration: '20' has no unit: write it as 20ms, with ns, us, ms or s",
        ),
        (
            &["a", "--highpass-order", "3", "--filter"],
            "--highpass-order: '3' is neither 2 nor 4",
        ),
        (
            &["a", "--highpass-order", "2"],
            "--highpass-order says nothing without --filter",
        ),
        (
            &["a", "--filter", "--no-highpass", "--no-dc-removal"],
            "--no-highpass and --no-dc-removal leave nothing to filter",
        ),
    ] {
        refused(&segments(words), &more(message));
    }
}

/// The library's own refusals, before the file is looked at.
#[test]
fn settings_out_of_range_are_said() {
    for (words, message) in [
        (
            &["--rate", "4000"][..],
            "--rate: the sample rate is not from 8,000 to 48,000 Hz (refusal 1)",
        ),
        (
            &["--frame-duration", "0s"],
            "--frame-duration: the frame duration is not from 1 ns to 1 s (refusal 2)",
        ),
        (
            &["--frame-overlap", "1"],
            "--frame-overlap: the frame overlap is not in [0, 1) (refusal 3)",
        ),
        (
            &["--pre-emphasis", "nan"],
            "--pre-emphasis: the pre-emphasis is not in [0, 1) (refusal 4)",
        ),
        (
            &["--release-ratio", "0.9"],
            "--release-ratio: the release ratio is NaN, or is below 1 (refusal 5)",
        ),
        (
            &["--activation-ratio", "inf"],
            "--activation-ratio, --release-ratio: the activation ratio is not finite, or is below the release ratio (refusal 6)",
        ),
        (
            &["--min-speech-energy=-1"],
            "--min-speech-energy: the least energy of speech is not finite, or is negative (refusal 7)",
        ),
        (
            &["--noise-smoothing", "1"],
            "--noise-smoothing: the smoothing of the noise floor is not in [0, 1) (refusal 8)",
        ),
        (
            &["--energy-floor", "0"],
            "--energy-floor: the energy floor is not finite, or is not above 0 (refusal 9)",
        ),
        (
            &["--min-speech-frames", "0"],
            "--min-speech-frames: the least number of speech frames is 0 (refusal 10)",
        ),
        (
            &["--frame-duration", "1s"],
            "--rate, --frame-duration: a frame has more than 2,048 samples (refusal 11)",
        ),
        (
            &["--frame-overlap", "0.99"],
            "--rate, --frame-duration, --frame-overlap: the warm-up has more than 300 frames (refusal 12)",
        ),
        (
            &["--speech-padding", "2s"],
            "--speech-padding, --hangover-frames, --min-speech-frames, --stream-start-time: the padding is above 1 s, the hangover or the least number of speech frames above 10,000, or the stream starts at 2^63 ns or later (refusal 13)",
        ),
        (
            &["--filter", "--highpass-cutoff-hz", "10"],
            "--highpass-cutoff-hz: the high-pass cutoff is not finite, or is below 20 Hz (refusal 21)",
        ),
        (
            &["--filter", "--rate", "8000", "--highpass-cutoff-hz", "5000"],
            "--highpass-cutoff-hz, --rate: the high-pass cutoff is not below half the sample rate (refusal 22)",
        ),
        (
            &["--filter", "--dc-bias-alpha", "1"],
            "--dc-bias-alpha: the smoothing of the DC bias is not in (0, 1) (refusal 23)",
        ),
    ] {
        refused(&segments(&[&["no such file"], words].concat()), message);
    }
}

#[test]
fn input_that_cannot_be_used_is_said() {
    refused(
        &segments(&["no such file"]),
        "'no such file' cannot be opened: No such file or directory (os error 2)",
    );
    refused(&segments(&["/"]), "'/' is a folder");
    let odd = file("odd.s16", &[0; 4097]);
    let bytes = "bytes, which is no whole number of";
    refused(
        &segments(&[&odd]),
        &format!("'{odd}' has 4097 {bytes} s16 samples of 2 bytes"),
    );
    refused(
        &segments(&[&odd, "--format", "f32"]),
        &format!("'{odd}' has 4097 {bytes} f32 samples of 4 bytes"),
    );

    let mut samples = breakfast();
    samples[200_000] = f32::NAN;
    let spoilt = file("spoilt.f32", &floats(&samples));
    let message = "sample 200000, at 0:00:12.500 of the recording, is not finite, or its magnitude is above 65,536 (refusal 16)";
    refused(&segments(&[&spoilt, "--format", "f32"]), message);
    refused(
        &segments(&[&spoilt, "--format", "f32", "--filter"]),
        message,
    );
}

/// What came before on standard input has been printed, in whole rows.
#[test]
fn a_stream_that_spoils_leaves_whole_rows() {
    let mut samples = breakfast();
    samples[200_000] = 1e6;
    let output = from_input(&["--tsv", "--format", "f32"], &floats(&samples));
    let message = "fallowcart: sample 200000, at 0:00:12.500 of the recording, is not finite, or its magnitude is above 65,536 (refusal 16)\n";
    assert_eq!(text(&output.stderr), message);
    assert_eq!(output.status.code(), Some(2));
    let rows = text(&output.stdout);
    assert!(
        rows.lines().count() > 2
            && rows.ends_with('\n')
            && shown("breakfast.tsv").starts_with(&rows)
    );

    // A byte too many: the samples before it were heard, and the segment that was open is closed.
    let bytes = std::fs::read(example()).expect("the example");
    let output = from_input(&["--tsv"], &bytes[..140_001]);
    let message = "fallowcart: standard input has 140001 bytes, which is no whole number of s16 samples of 2 bytes\n";
    assert_eq!(text(&output.stderr), message);
    assert_eq!(output.status.code(), Some(2));
    let whole = from_input(&["--tsv"], &bytes[..140_000]);
    assert_eq!(text(&output.stdout), printed(&whole));
    assert_eq!(printed(&whole).lines().count(), 4);

    // Nothing was heard, and nothing is printed.
    refused(
        &from_input(&[], &[0]),
        "standard input has 1 bytes, which is no whole number of s16 samples of 2 bytes",
    );
}

/// The likeliest mistake: a recording of another kind.
#[test]
fn a_recording_of_another_kind_is_said() {
    let mut wav = b"RIFF\x24\x08\0\0WAVEfmt ".to_vec();
    wav.resize(4_096, 0);
    let message = "is a WAV file, not raw samples: 'fallowcart --help' says how to make them";
    let path = file("talk.wav", &wav);
    refused(&segments(&[&path]), &format!("'{path}' {message}"));
    refused(&from_input(&[], &wav), &format!("standard input {message}"));
}

#[test]
fn a_table_that_cannot_be_written_is_said() {
    let full = || {
        std::fs::OpenOptions::new()
            .write(true)
            .open("/dev/full")
            .expect("it is there")
    };
    let example = example();
    for words in [
        &["segments", example.to_str().expect("a path")][..],
        &["--help"],
    ] {
        let output = fallowcart()
            .args(words)
            .stdout(full())
            .stderr(Stdio::piped())
            .output();
        let output = output.expect("the program runs");
        let message = "fallowcart: standard output cannot be written: No space left on device (os error 28)\n";
        assert_eq!(text(&output.stderr), message);
        assert_eq!(output.status.code(), Some(2));
    }
    // Nor does a message that cannot be written change the status.
    let output = fallowcart()
        .arg("cut")
        .stderr(full())
        .output()
        .expect("the program runs");
    assert_eq!(output.status.code(), Some(2));
}

/// A name that looks like an option.
#[test]
fn after_two_dashes_a_word_is_a_file() {
    let folder = PathBuf::from(env!("CARGO_TARGET_TMPDIR"));
    std::fs::copy(example(), folder.join("-dash")).expect("a copy");
    let output = fallowcart()
        .args(["segments", "--tsv", "--", "-dash"])
        .current_dir(&folder)
        .output()
        .expect("the program runs");
    assert_eq!(printed(&output), shown("breakfast.tsv"));
}

#[test]
fn no_sound_and_no_speech_are_no_errors() {
    let empty = file("empty.s16", &[]);
    let table = printed(&segments(&[&empty]));
    assert!(
        table.ends_with("no speech in 0:00:00.000 of sound\n"),
        "{table}"
    );
    let still = file("still.s16", &[0; 64_000]);
    let table = printed(&segments(&[&still]));
    assert!(
        table.ends_with("no speech in 0:00:02.000 of sound\n"),
        "{table}"
    );
}

#[test]
fn a_reader_that_goes_away_is_no_reason_to_complain() {
    let mut child = fallowcart()
        .args(["segments", "-", "--tsv"])
        .stdin(Stdio::piped())
        .stdout(Stdio::piped())
        .stderr(Stdio::piped())
        .spawn()
        .expect("the program runs");
    drop(child.stdout.take());
    let mut stdin = child.stdin.take().expect("piped");
    drop(stdin.write_all(&std::fs::read(example()).expect("the example")));
    drop(stdin);
    let output = child.wait_with_output().expect("it ends");
    assert_eq!(text(&output.stderr), "");
    assert_eq!(output.status.code(), Some(141));
}

#[test]
fn the_help_names_every_option_and_its_default() {
    let help = fallowcart()
        .arg("--help")
        .output()
        .expect("the program runs");
    let help = printed(&help);
    assert_eq!(help, printed(&segments(&["--help"])));
    assert!(help.lines().all(|line| line.chars().count() <= 80));
    let vad = fallowcart::VadConfig::default();
    let filter = fallowcart::PreprocessingConfig::default();
    for (option, default) in [
        ("--rate", vad.sample_rate.to_string()),
        (
            "--frame-duration",
            format!("{}ms", vad.frame_duration.as_millis()),
        ),
        ("--frame-overlap", vad.frame_overlap.to_string()),
        ("--pre-emphasis", vad.pre_emphasis.expect("on").to_string()),
        ("--activation-ratio", vad.activation_ratio.to_string()),
        ("--release-ratio", vad.release_ratio.to_string()),
        ("--min-speech-energy", vad.min_speech_energy.to_string()),
        ("--noise-smoothing", vad.noise_smoothing.to_string()),
        ("--energy-floor", vad.energy_floor.to_string()),
        ("--hangover-frames", vad.hangover_frames.to_string()),
        (
            "--speech-padding",
            format!("{}ms", vad.speech_padding.as_millis()),
        ),
        ("--min-speech-frames", vad.min_speech_frames.to_string()),
        ("--stream-start-time", format!("{}s", vad.stream_start_time)),
        (
            "--highpass-cutoff-hz",
            filter.highpass_cutoff_hz.to_string(),
        ),
        ("--highpass-order", "4".into()),
        ("--dc-bias-alpha", filter.dc_bias_alpha.to_string()),
        ("--format", "s16".into()),
        ("--block", "1024".into()),
    ] {
        let at = help
            .find(&format!("  {option} "))
            .unwrap_or_else(|| panic!("{option} is not named"));
        let default = format!("[{default}]");
        assert!(
            help[at..]
                .lines()
                .take(3)
                .any(|line| line.contains(&default)),
            "{option} {default}"
        );
    }
}
