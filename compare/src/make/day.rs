//! 02 W4: days by number, so that their differences are exact; 0001-01-01 is 0.

use super::record::{read_number, write_number};
use crate::random::Random;

pub type Day = i64;

/// 9999-12-31.
pub const LAST: Day = 3_652_058;

pub fn days_in(year: i64, month: i64) -> i64 {
    match month {
        2 if year % 4 == 0 && (year % 100 != 0 || year % 400 == 0) => 29,
        2 => 28,
        4 | 6 | 9 | 11 => 30,
        _ => 31,
    }
}

/// 1 January.
fn new_year(year: i64) -> Day {
    let before = year - 1;
    before * 365 + before / 4 - before / 100 + before / 400
}

pub fn number(year: i64, month: i64, day: i64) -> Day {
    new_year(year) + (1..month).map(|month| days_in(year, month)).sum::<i64>() + day - 1
}

/// Year, month and day; days past the calendar's ends are those at its ends.
pub fn date(day: Day) -> [i64; 3] {
    let day = day.clamp(0, LAST);
    let mut year = day / 366 + 1;
    while new_year(year + 1) <= day {
        year += 1;
    }
    let (mut month, mut rest) = (1, day - new_year(year));
    while rest >= days_in(year, month) {
        rest -= days_in(year, month);
        month += 1;
    }
    [year, month, rest + 1]
}

/// The first and the last day of the month that this day lies in.
pub fn month_of(day: Day) -> [Day; 2] {
    let [year, month, _] = date(day);
    [1, days_in(year, month)].map(|day| number(year, month, day))
}

/// Eight digits YYYYMMDD that are a real day.
pub fn read(bytes: &[u8]) -> Option<Day> {
    let bytes: &[u8; 8] = bytes.try_into().ok()?;
    let digits = read_number(bytes)? as i64;
    let (year, month, day) = (digits / 10_000, digits / 100 % 100, digits % 100);
    let is_real = year > 0 && (1..=12).contains(&month) && (1..=days_in(year, month)).contains(&day);
    is_real.then(|| number(year, month, day))
}

pub fn write(bytes: &mut [u8], day: Day) {
    let [year, month, day] = date(day);
    write_number(bytes, (year * 10_000 + month * 100 + day) as u128);
}

/// The first and the last day of a month MMYY, of the years 2000 to 2099.
pub fn read_month(bytes: &[u8]) -> Option<[Day; 2]> {
    let digits = read_number(bytes)? as i64;
    let month = digits / 100;
    (1..=12).contains(&month).then(|| month_of(number(2_000 + digits % 100, month, 1)))
}

/// MMYY, for the month that this day lies in.
pub fn write_month(bytes: &mut [u8], day: Day) {
    let [year, month, _] = date(day);
    write_number(bytes, (month * 100 + year % 100) as u128);
}

pub fn between(low: Day, high: Day, random: &Random) -> Day {
    low + random.below((high - low + 1) as u64) as i64
}

#[cfg(test)]
mod tests {
    use super::*;

    #[test]
    fn all_days() {
        let mut bytes = [0; 8];
        let mut next = [1, 1, 1];
        for day in 0..=LAST {
            assert_eq!(date(day), next);
            write(&mut bytes, day);
            assert_eq!(read(&bytes), Some(day));
            let [year, month, of_month] = next;
            next = match month {
                _ if of_month < days_in(year, month) => [year, month, of_month + 1],
                12 => [year + 1, 1, 1],
                _ => [year, month + 1, 1],
            };
        }
        assert_eq!(next, [10_000, 1, 1]);
        assert_eq!(
            [number(1970, 1, 1), number(2000, 2, 29), LAST],
            [719_162, 730_178, number(9999, 12, 31)]
        );
    }

    #[test]
    fn months() {
        let mut bytes = [0; 4];
        for (year, month) in (2_000..2_100).flat_map(|year| (1..=12).map(move |month| (year, month))) {
            let [first, last] = month_of(number(year, month, 15));
            assert_eq!((date(first), date(last + 1)[2]), ([year, month, 1], 1));
            write_month(&mut bytes, last);
            assert_eq!(read_month(&bytes), Some([first, last]));
        }
    }
}
