//! The rows, for a person or for a program.

use fallowcart::SpeechChunk;

use super::time::{clock, length};

/// The names of the columns.
pub fn head(tsv: bool) -> &'static str {
    if tsv {
        "start_sample\tend_sample\tstart_time_ns\tend_time_ns\tconfidence\tscore_total\tloud_frames\tmean_energy\n"
    } else {
        "           start              end     length confidence loud frames mean energy\n"
    }
}

pub fn row(tsv: bool, row: &SpeechChunk) -> String {
    if tsv {
        return format!(
            "{}\t{}\t{}\t{}\t{}\t{}\t{}\t{}\n",
            row.start_sample,
            row.end_sample,
            row.start_time,
            row.end_time,
            row.confidence(),
            row.score_total,
            row.loud_frames,
            row.mean_energy,
        );
    }
    format!(
        "{:>16} {:>16} {:>8.3} s {:>10.2} {:>11} {:>11.6}\n",
        clock(row.start_time),
        clock(row.end_time),
        (row.end_time - row.start_time) as f64 / 1e9,
        row.confidence(),
        row.loud_frames,
        row.mean_energy,
    )
}

/// The last line for a person.
pub fn summary(rows: u64, talk: u64, received: u64, rate: u32) -> String {
    let sound = clock(length(received, rate));
    let talk = clock(length(talk, rate));
    match rows {
        0 => format!("no speech in {sound} of sound\n"),
        1 => format!("1 segment: {talk} of speech in {sound} of sound\n"),
        _ => format!("{rows} segments: {talk} of speech in {sound} of sound\n"),
    }
}
