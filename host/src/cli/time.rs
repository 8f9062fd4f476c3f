//! Durations as they are typed, and times as they are read.

use std::time::Duration;

const NANOS: u64 = 1_000_000_000;

/// `20ms`, `0.5s`, `125us`, `1ns`: a decimal number and its unit, exact to the nanosecond.
pub fn parse_nanos(text: &str) -> Result<u64, String> {
    let digits = text
        .find(|c: char| !c.is_ascii_digit() && c != '.')
        .ok_or_else(|| format!("'{text}' has no unit: write it as 20ms, with ns, us, ms or s"))?;
    let (number, unit) = text.split_at(digits);
    let scale: u64 = match unit {
        "ns" => 1,
        "us" => 1_000,
        "ms" => 1_000_000,
        "s" => NANOS,
        _ => {
            return Err(format!(
                "'{text}' is no duration: write it as 20ms, with ns, us, ms or s"
            ));
        }
    };
    let (whole, part) = number.split_once('.').unwrap_or((number, ""));
    if (whole.is_empty() && part.is_empty()) || part.contains('.') {
        return Err(format!("'{text}' is no duration: '{number}' is no number"));
    }
    let too_long = || format!("'{text}' is too long a time");
    let whole: u64 = if whole.is_empty() {
        0
    } else {
        whole.parse().map_err(|_| too_long())?
    };
    let mut nanos = whole.checked_mul(scale).ok_or_else(too_long)?;
    let mut place = scale;
    for digit in part.bytes() {
        if digit != b'0' && place < 10 {
            return Err(format!("'{text}' is finer than a nanosecond"));
        }
        place /= 10;
        nanos = nanos
            .checked_add(u64::from(digit - b'0') * place)
            .ok_or_else(too_long)?;
    }
    Ok(nanos)
}

pub fn parse_duration(text: &str) -> Result<Duration, String> {
    parse_nanos(text).map(Duration::from_nanos)
}

/// `1:02:03.456`, to the nearest millisecond.
pub fn clock(nanos: u64) -> String {
    let millis = nanos / 1_000_000 + u64::from(nanos % 1_000_000 >= 500_000);
    let (secs, millis) = (millis / 1_000, millis % 1_000);
    format!(
        "{}:{:02}:{:02}.{millis:03}",
        secs / 3_600,
        secs / 60 % 60,
        secs % 60
    )
}

/// How long so many samples are, at most 2^40 of them.
pub fn length(samples: u64, rate: u32) -> u64 {
    let rate = u64::from(rate);
    samples / rate * NANOS + samples % rate * NANOS / rate
}

#[cfg(test)]
mod tests {
    use super::*;

    #[test]
    fn durations_are_exact() {
        for (text, nanos) in [
            ("20ms", 20_000_000),
            ("0.5s", 500_000_000),
            (".25us", 250),
            ("1.s", NANOS),
            ("1.000000001s", NANOS + 1),
            ("1.0000000010s", NANOS + 1),
            ("18446744073709551615ns", u64::MAX),
        ] {
            assert_eq!(parse_nanos(text), Ok(nanos), "{text}");
        }
    }

    #[test]
    fn what_is_no_duration_is_said() {
        for (text, message) in [
            (
                "20",
                "'20' has no unit: write it as 20ms, with ns, us, ms or s",
            ),
            ("ms", "'ms' is no duration: '' is no number"),
            (".ms", "'.ms' is no duration: '.' is no number"),
            ("1.2.3s", "'1.2.3s' is no duration: '1.2.3' is no number"),
            (
                "-1s",
                "'-1s' is no duration: write it as 20ms, with ns, us, ms or s",
            ),
            (
                "20 ms",
                "'20 ms' is no duration: write it as 20ms, with ns, us, ms or s",
            ),
            ("0.5ns", "'0.5ns' is finer than a nanosecond"),
            (
                "18446744073709551616ns",
                "'18446744073709551616ns' is too long a time",
            ),
            (
                "18446744073709551615s",
                "'18446744073709551615s' is too long a time",
            ),
        ] {
            assert_eq!(parse_nanos(text), Err(message.to_string()));
        }
    }

    #[test]
    fn times_are_rounded_to_the_millisecond() {
        assert_eq!(clock(0), "0:00:00.000");
        assert_eq!(clock(3_723_456_499_999), "1:02:03.456");
        assert_eq!(clock(3_599_999_500_000), "1:00:00.000");
        assert_eq!(clock(u64::MAX), "5124095:34:33.710");
    }

    #[test]
    fn samples_are_long() {
        assert_eq!(length(16_000, 16_000), NANOS);
        assert_eq!(length(1 << 40, 8_000), 137_438_953_472_000_000);
    }
}
