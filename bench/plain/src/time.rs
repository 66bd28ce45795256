//! Instants as milliseconds since 1970, and their texts.

const DAY: i64 = 86_400_000;

/// The days from 1970 to a civil date.
fn days(year: i64, month: i64, day: i64) -> i64 {
    let year = if month <= 2 { year - 1 } else { year };
    let era = year.div_euclid(400);
    let (of_era, of_year) = (year - era * 400, (153 * ((month + 9) % 12) + 2) / 5 + day - 1);
    era * 146_097 + of_era * 365 + of_era / 4 - of_era / 100 + of_year - 719_468
}

/// The civil date of a day.
fn date(days: i64) -> (i64, i64, i64) {
    let days = days + 719_468;
    let era = days.div_euclid(146_097);
    let of_era = days - era * 146_097;
    let year = (of_era - of_era / 1_460 + of_era / 36_524 - of_era / 146_096) / 365;
    let of_year = of_era - (365 * year + year / 4 - year / 100);
    let month = (5 * of_year + 2) / 153;
    let day = of_year - (153 * month + 2) / 5 + 1;
    let month = if month < 10 { month + 3 } else { month - 9 };
    (year + era * 400 + i64::from(month <= 2), month, day)
}

fn number(digits: &[u8]) -> i64 {
    digits.iter().fold(0, |number, digit| number * 10 + i64::from(digit - b'0'))
}

/// Reads `YYYY-MM-DD`, and what stands of `THH:MM:SS.mmm` and `Z` after it.
fn parse(text: &str) -> i64 {
    let text = text.strip_suffix('Z').unwrap_or(text).as_bytes();
    let part = |from: usize, to: usize| text.get(from..to).map_or(0, number);
    let clock = ((part(11, 13) * 60 + part(14, 16)) * 60 + part(17, 19)) * 1_000 + part(20, 23);
    days(part(0, 4), part(5, 7), part(8, 10)) * DAY + clock
}

pub fn parse_interval(text: &str) -> (i64, i64) {
    let (start, end) = text.split_once('/').unwrap();
    (parse(start), parse(end))
}

/// Writes an instant into 24 bytes.
fn write_instant(text: &mut [u8], instant: i64) {
    let ((year, month, day), clock) = (date(instant.div_euclid(DAY)), instant.rem_euclid(DAY));
    let (seconds, millis) = (clock / 1_000, clock % 1_000);
    let (hour, minute, second) = (seconds / 3_600, seconds / 60 % 60, seconds % 60);
    let parts = [(year, 4, b'-'), (month, 2, b'-'), (day, 2, b'T'), (hour, 2, b':'), (minute, 2, b':'), (second, 2, b'.'), (millis, 3, b'Z')];
    let mut from = 0;
    for (mut number, width, after) in parts {
        for digit in text[from..from + width].iter_mut().rev() {
            *digit = b'0' + (number % 10) as u8;
            number /= 10;
        }
        text[from + width] = after;
        from += width + 1;
    }
}

pub fn interval_text(start: i64, end: i64) -> [u8; 49] {
    let mut text = [b'/'; 49];
    write_instant(&mut text[..24], start);
    write_instant(&mut text[25..], end);
    text
}
