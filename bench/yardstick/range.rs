//! Ranges of normal play time, as text and as units of the media.

use crate::book::Refusal;
use crate::content::{UNIT_MS, UNITS};
use crate::text::Text;

const NANOS_PER_SECOND: u64 = 1_000_000_000;
const NANOS_PER_UNIT: u64 = UNIT_MS * 1_000_000;

/// Times in nanoseconds, either of which may be missing.
#[derive(Default)]
pub struct Range {
    start: Option<u64>,
    stop: Option<u64>,
}

fn number(digits: &str, most: usize) -> Option<u64> {
    let is_one = (1..=most).contains(&digits.len()) && digits.bytes().all(|it| it.is_ascii_digit());
    digits.parse().ok().filter(|_| is_one)
}

/// Seconds as `75` or `0:01:15`.
fn seconds(text: &str) -> Option<u64> {
    let Some((hours, rest)) = text.split_once(':') else {
        return number(text, 19);
    };
    let (minutes, seconds) = rest.split_once(':')?;
    let sixtieth = |text| number(text, 2).filter(|it| *it < 60);
    let hours = number(hours, 19)?;
    Some(
        hours
            .saturating_mul(3_600)
            .saturating_add(60 * sixtieth(minutes)? + sixtieth(seconds)?),
    )
}

/// A time as `2.5` or `0:00:02.5`. What is too great for a number of nanoseconds is behind all media.
fn time(text: &str) -> Option<u64> {
    let (whole, fraction) = text.split_once('.').unwrap_or((text, ""));
    let mut nanos = 0;
    if !fraction.is_empty() {
        nanos = number(fraction, 9)? * 10_u64.pow(9 - fraction.len() as u32);
    }
    Some(
        seconds(whole)?
            .saturating_mul(NANOS_PER_SECOND)
            .saturating_add(nanos),
    )
}

/// A time that may be missing.
fn side(text: &str) -> Result<Option<u64>, Refusal> {
    if text.is_empty() {
        return Ok(None);
    }
    time(text).map(Some).ok_or(Refusal::BadRange)
}

impl Range {
    /// Reads the value of a Range header: `npt`, alone or with `=` and times on either side of a dash.
    pub fn read(value: &[u8]) -> Result<Range, Refusal> {
        let text = std::str::from_utf8(value).map_err(|_| Refusal::BadRange)?;
        let (unit, times) = match text.split_once('=') {
            Some((unit, times)) => (unit, Some(times)),
            None => (text, None),
        };
        if !unit.eq_ignore_ascii_case("npt") {
            return Err(Refusal::BadRange);
        }
        let Some(times) = times else {
            return Ok(Range::default());
        };
        match times.split_once('-') {
            None | Some(("", "")) => Err(Refusal::BadRange),
            Some((start, stop)) => Ok(Range {
                start: side(start)?,
                stop: side(stop)?,
            }),
        }
    }

    /// The unit where it starts, where it names one, and the one before which it stops. `point` is the session's.
    pub fn units(&self, point: u32) -> Result<(Option<u32>, u32), Refusal> {
        let start = self.start.map(|start| start / NANOS_PER_UNIT);
        let stop = self.stop.map_or(u64::from(UNITS), |stop| {
            stop.div_ceil(NANOS_PER_UNIT).min(u64::from(UNITS))
        });
        let is_backwards = match (self.start, self.stop) {
            (Some(start), Some(stop)) => stop <= start,
            _ => false,
        };
        if start.unwrap_or(u64::from(point)) >= stop || is_backwards {
            return Err(Refusal::OutOfMedia);
        }
        Ok((start.map(|unit| unit as u32), stop as u32))
    }
}

/// Puts the time at which a unit begins: seconds with three decimals.
pub fn put_time(out: &mut Text, unit: u32) {
    let ms = u64::from(unit) * UNIT_MS;
    out.put_decimal(ms / 1_000).put(".").put_digits::<3>(ms);
}

/// Puts the range from a unit on and before another.
pub fn put_range(out: &mut Text, from: u32, stop: u32) {
    out.put("npt=");
    put_time(out, from);
    out.put("-");
    put_time(out, stop);
}
