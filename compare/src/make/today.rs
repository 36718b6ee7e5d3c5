//! 02 W4: today as it is lent, and dates of checks about it.

use super::day::{between, date, month_of, number, write, Day, LAST};
use super::record::{ebcdic, BLANK};
use crate::random::Random;

#[derive(Debug)]
pub struct Today {
    pub day: Day,
    /// The day, nothing, or bytes that are no real day.
    pub lent: Vec<u8>,
    /// Whether the dates of checks are made about the day; else they are any.
    pub about: bool,
}

/// The months that field 20 can name.
const MONTHS: [Day; 2] = [730_119, 766_643]; // 2000-01-01 and 2099-12-31

#[rustfmt::skip]
const NO_DAYS: [&str; 20] = [
    "00000101", "00000229", "00000000", "99999999", "20240001", "20241301", "20240100", "20240132", "20240230", "20240431",
    "20240631", "20240931", "20241131", "20230229", "19000229", "21000229", "        ", "--------", "2024-2-9", "1 Jan 24",
];

impl Today {
    pub fn new(random: &Random) -> Today {
        let day = any_day(random);
        let mut lent = vec![0; 8];
        write(&mut lent, day);
        let mut today = Today { day, lent, about: true };
        match random.below(30) {
            0..=4 => today.lent.clear(),
            5..=9 => {
                today.lent.clear();
                today.about = false;
            }
            10 | 11 => today.damage(random),
            12 => today.about = false,
            _ => {}
        }
        today
    }

    /// Lends bytes that are no real day.
    pub fn damage(&mut self, random: &Random) {
        let lent = &mut self.lent;
        lent.resize(8, 0);
        write(lent, self.day);
        let at = random.index(8);
        match random.below(12) {
            0 | 1 => lent.truncate(7),
            2 | 3 => lent.push(random.pick(&[0xF0, BLANK, random.byte(0, 255)])),
            4 | 5 => lent.iter_mut().for_each(|digit| *digit = *digit - 0xF0 + b'0'),
            6 => lent[at] = random.pick(&[BLANK, 0x60, 0xEF, 0xFA, 0x00, 0xFF, b'0', random.byte(0, 0xEF)]),
            7 => {
                lent.rotate_right(at);
                lent[0] = BLANK;
            }
            8 => {
                let [year, month, day] = date(self.day);
                *lent = format!("{year:04}-{month:02}-{day:02}").bytes().map(ebcdic).collect();
            }
            9 => lent.resize(random.pick(&[1, 2, 4, 6, 16, 850]), 0xF1),
            _ => *lent = random.pick(&NO_DAYS).bytes().map(ebcdic).collect(),
        }
    }

    /// The first and the last day of a month, mostly one that today admits and field 20 can name, often the earliest or the latest of them.
    pub fn month(&self, random: &Random) -> [Day; 2] {
        let (low, high) = (self.day - 180, self.day + 30);
        let day = match random.below(16) {
            0..=2 => low,
            3 => high,
            4 => high + 1,
            5 | 6 => random.pick(&[low - 1, high + 2]),
            7..=9 => self.day,
            _ => between(low, high, random),
        };
        month_of(random.rarely(6, day, day.clamp(MONTHS[0], MONTHS[1])))
    }

    /// A creation date that today admits, but for a rare one a day later.
    pub fn created(&self, random: &Random) -> Day {
        let day = self.day;
        let usual = random.pick(&[day, day, day - 1, between(day - 400, day, random), between(0, day, random)]);
        random.rarely(12, day + 1, usual)
    }

    /// An issue date that today and the month admit, if there is one, often the first or the last; a careless one lies just outside.
    pub fn issued(&self, [first, last]: [Day; 2], careless: bool, random: &Random) -> Day {
        let (low, high) = (first.max(self.day - 180), last.min(self.day + 30));
        let (low, high) = if low <= high { (low, high) } else { (first, last) };
        match careless {
            true => random.pick(&[low - 1, high + 1]),
            false => random.pick(&[low, high, between(low, high, random)]),
        }
    }

    /// A date for field 17, 20 or 59 at a limit of today or of the month, or one past it.
    pub fn at_limit(&self, field: u64, [first, last]: [Day; 2], random: &Random) -> Day {
        let ahead: &[Day] = match field {
            17 => &[-1, 0, 1, 1, 1, 2, 31],
            20 => &[31, 32, 32, 62, 365, -180, -181, -181, -211, -365],
            _ => &[-180, -180, -181, -181, 30, 30, 31, 31, 0],
        };
        match field == 59 && random.chance(2) {
            true => random.pick(&[first - 1, first, last, last + 1]),
            false => self.day + random.pick(ahead),
        }
    }
}

/// Mostly a day on which checks can be sound; often one from which a limit falls on the end of a month, a leap day or the turn of a year.
#[rustfmt::skip]
fn any_day(random: &Random) -> Day {
    let (year, month) = (2_000 + random.below(100) as i64, 1 + random.below(12) as i64);
    let [first, last] = month_of(number(year, month, 1));
    let leap_year = random.pick(&[2_000, 2_000, 2_024, 2_096]);
    let [_, february_ends] = month_of(number(random.pick(&[leap_year, leap_year, year]), 2, 1));
    match random.below(41) {
        0..=9 => between(MONTHS[0], MONTHS[1], random),
        10..=13 => random.pick(&[first, last]),
        14..=21 => random.pick(&[first - 30, first - 31, first - 32, first - 32, last + 179, last + 180, last + 181, last + 181]),
        22..=25 => number(year, random.pick(&[12, 1]), random.pick(&[1, 2, 30, 31, 1 + random.below(31) as i64])),
        26..=29 => february_ends + random.pick(&[-31, -30, -1, 0, 0, 1, 180, 180, 181, 181]),
        30 => number(year, 11, 30),
        31..=33 => MONTHS[0] + random.pick(&[-32, -31, -30, -1, 0, 1, 180, 181]),
        34..=36 => MONTHS[1] + random.pick(&[-30, -1, 0, 1, 179, 180, 181]),
        37 | 38 => random.pick(&[0, 0, 0, 1, 179, 180, LAST - 30, LAST - 1, LAST, LAST, number(1_600, 2, 29), number(2_400, 2, 29)]),
        39 => between(MONTHS[0] - 400, MONTHS[0], random),
        _ => between(0, LAST, random),
    }
}

#[cfg(test)]
mod tests {
    use super::super::day::read;
    use super::*;

    #[test]
    fn what_is_lent() {
        let random = &Random::new(1);
        let (mut nothing, mut real) = (0, 0);
        for _ in 0..30_000 {
            let mut today = Today::new(random);
            assert!((0..=LAST).contains(&today.day));
            assert!(read(&today.lent).is_none_or(|lent| lent == today.day));
            nothing += u32::from(today.lent.is_empty());
            real += u32::from(read(&today.lent).is_some());
            today.damage(random);
            assert!(read(&today.lent).is_none() && !today.lent.is_empty(), "{:02X?}", today.lent);
        }
        assert!(
            (9_500..10_500).contains(&nothing) && (17_500..18_500).contains(&real),
            "{nothing} {real}"
        );
        assert_eq!(MONTHS, [number(2_000, 1, 1), number(2_099, 12, 31)]);
    }
}
