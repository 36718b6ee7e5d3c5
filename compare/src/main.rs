//! Compares the two judges on inputs made from seeds: `compare [N [SEED]]`, or `compare --one INPUT_SEED [--write DIR]`. Each input is
//! judged twice: as it is, and with every value moved within its field (02 W3), which must draw the same answer and the same report. Where
//! no day is lent (02 W4), the proved judge's entry that takes none must do as the other does.

use std::collections::{BTreeMap, HashSet};
use std::panic::{catch_unwind, AssertUnwindSafe};
use std::path::Path;
use std::process::ExitCode;
use std::sync::atomic::{AtomicU64, Ordering::Relaxed};
use std::time::Instant;
use std::{env, fs, io, thread};

use compare::ascii::{is_ascii, to_ascii, to_ebcdic, translated, ASCII_FH};
use compare::layout::{of, RECORD};
use compare::make::book::codes_ascend;
use compare::make::day::{self, Day};
use compare::make::justify::{corrected, justified, Justified, Page, EBCDIC};
use compare::make::record::{code_of, fields_of, BLANK};
use compare::make::{input_seed, Input, Piece, Recipe};
use compare::{judge, proved};

const THREADS: u64 = 2;
const INPUTS: u64 = 100_000;
const SEED: u64 = 20_131_126;
/// Bytes beside the report space, which no judge may touch.
const GUARD: usize = 64;
/// Records judged to make a difference smaller.
const SHRINKING: usize = 20_000_000;

/// 01 Batch reasons: each reason with each field that may draw it, and the batches it may stand in.
#[rustfmt::skip]
const ALLOWED: &[(u64, u64, &str)] = &[
    // Sound
    (0, 0, "NCWIA"),
    // Header
    (1, 6, "NCWIA"), (6, 6, "NCWIA"), (7, 6, "C"),
    (1, 7, "NWIA"), (2, 7, "NWIA"),
    (1, 8, "NWIA"), (5, 8, "NWIA"),
    (1, 9, "NWIA"), (2, 9, "NWIA"), (14, 9, "NWIA"),
    (1, 10, "NWIA"), (3, 10, "NWIA"),
    (1, 12, "W"), (2, 12, "W"), (3, 12, "W"),
    (1, 13, "N"), (2, 13, "N"), (3, 13, "N"),
    (1, 14, "NWIA"), (4, 14, "NWIA"),
    (1, 15, "C"), (2, 15, "C"),
    (1, 16, "C"), (3, 16, "C"),
    (1, 17, "C"), (5, 17, "C"), (15, 17, "C"),
    // 02 W3: never (1, 18), as no corrected 6 begins with the blanks that a blank 18 puts in front.
    (2, 18, "C"), (8, 18, "C"),
    (1, 19, "C"), (2, 19, "C"),
    (1, 20, "C"), (2, 20, "C"), (5, 20, "C"), (15, 20, "C"),
    // Detail
    (1, 23, "NCWIA"), (6, 23, "NCWIA"), (7, 23, "C"),
    (1, 24, "NCWIA"), (2, 24, "NCWIA"), (8, 24, "NCWIA"),
    (1, 25, "C"), (3, 25, "C"),
    (1, 26, "NCWIA"),
    (1, 28, "NCWIA"), (4, 28, "NCWIA"),
    (1, 29, "C"), (4, 29, "C"),
    (4, 35, "NCWIA"), (2, 36, "NCWIA"), (4, 38, "NCWIA"),
    (1, 42, "W"), (2, 42, "W"), (3, 42, "W"),
    (1, 43, "N"), (2, 43, "N"), (3, 43, "N"),
    (1, 44, "W"), (3, 44, "W"),
    (3, 48, "N"), (3, 51, "I"), (4, 52, "NCWIA"),
    (1, 54, "A"), (1, 55, "A"),
    (1, 56, "A"), (5, 56, "A"),
    (1, 58, "C"), (2, 58, "C"), (7, 58, "C"),
    (1, 59, "C"), (5, 59, "C"), (15, 59, "C"),
    (1, 62, "N"), (3, 62, "N"),
    // Others
    (1, 66, "NCWI"),
    (1, 80, "NCWIA"), (1, 84, "NCWIA"), (1, 85, "NCWIA"),
    (1, 86, "NCWIA"), (4, 86, "NCWIA"),
    (1, 87, "NCWIA"), (2, 87, "NCWIA"), (9, 87, "NCWIA"),
    (1, 96, "NCWIA"), (2, 96, "NCWIA"), (10, 96, "NCWIA"),
    (11, 76, "NCWIA"), (12, 76, "NCWIA"),
    (1, 99, "NCWIA"), (2, 99, "NCWIA"), (13, 99, "NCWIA"),
    (1, 100, "NCWIA"), (2, 100, "NCWIA"), (14, 100, "NCWIA"),
];

/// How often each file answer, and each reason with each field in each kind of batch, was given; and how often to files in ASCII.
#[derive(Default)]
struct Counts(BTreeMap<String, u64>);

/// 02 W2: beside the kinds of batches, the batches of files in ASCII are counted together.
const ASCII: &str = "ASCII";

/// The columns of a line about these kinds of batches.
fn columns(letters: &str) -> Vec<String> {
    letters
        .chars()
        .map(|letter| format!("B{letter}"))
        .chain([ASCII.to_string()])
        .collect()
}

fn answer_words(answer: u64) -> String {
    format!("file answer {answer}")
}

fn ascii_answer_words(answer: u64) -> String {
    format!("file answer {answer} in {ASCII}")
}

fn row_words(reason: u64, field: u64, column: &str) -> String {
    format!("reason {reason} field {field} in {column}")
}

/// 02 W1: what may be said of a batch with more than 1,000 DT, beside reason 12.
const OF_MANY_TAS: [&str; 2] = ["sound", "rejected, but not for 12"];

fn many_tas_words(said: &str, column: &str) -> String {
    format!("more than 1,000 DT, {said}, in {column}")
}

fn has_many_tas(records: &[u8]) -> bool {
    let is_tas = |record: &&[u8]| code_of(record) == "DT";
    records.len() > 1_000 * RECORD && records.chunks(RECORD).filter(is_tas).count() > 1_000
}

/// Files in words, and whether a file with its answer is one of them.
type Files = (&'static str, fn(&[u8], u64) -> bool);

/// 02 W2: files about their first two bytes, and files in ASCII about their unprintable bytes.
#[rustfmt::skip]
const ABOUT_ASCII: [Files; 11] = [
    ("the byte 46 alone", |file, _| *file == ASCII_FH[..1]),
    ("the bytes 46 48 alone", |file, _| *file == ASCII_FH),
    ("46 48, then EBCDIC", |file, _| is_ascii(file) && goes_on(file, |byte| byte)),
    ("C6 C8, then ASCII", |file, _| file.starts_with(&[0xC6, 0xC8]) && goes_on(file, to_ebcdic)),
    ("66 68, then ASCII", |file, _| file.starts_with(&[0x66, 0x68]) && goes_on(file, to_ebcdic)),
    ("46 without 48, then ASCII", |file, _| goes_on(file, to_ebcdic) && file[0] == 0x46 && file[1] != 0x48),
    ("48 without 46, then ASCII", |file, _| goes_on(file, to_ebcdic) && file[0] != 0x46 && file[1] == 0x48),
    ("ASCII, all printable, accepted", |file, answer| answer == 0 && is_ascii(file) && !has_unprintable(file)),
    ("ASCII, unprintable in fillers, accepted", |file, answer| answer == 0 && is_ascii(file) && has_unprintable(file)),
    ("ASCII, IDs equal once translated, 6", |file, answer| answer / 100_000 == 6 && is_ascii(file) && has_ids_apart(file)),
    ("ASCII, IDs equal once translated, 7", |file, answer| answer / 100_000 == 7 && is_ascii(file) && has_ids_apart(file)),
];

fn about_ascii_words(about: &str) -> String {
    format!("file of {about}")
}

/// Whether the second record, its bytes read so, is a batch header.
fn goes_on(file: &[u8], read: fn(u8) -> u8) -> bool {
    let code = |code: &[u8]| code_of(&[read(code[0]), read(code[1])]);
    let second = file.get(RECORD..RECORD + 2);
    second.is_some_and(|second| is_header(code(second)))
}

fn has_unprintable(file: &[u8]) -> bool {
    file.iter().any(|&byte| to_ascii(to_ebcdic(byte)).is_none())
}

/// Whether a Payment ID of a well nested file in ASCII is not byte for byte its detail's, wherever it stands in its field.
fn has_ids_apart(file: &[u8]) -> bool {
    let (page, mut id) = (Page::of(file), &[][..]);
    file.chunks_exact(RECORD).any(|record| {
        match code_of(&[record[0], record[1]].map(to_ebcdic)) {
            "DN" | "DC" | "DW" | "DI" | "DA" => id = page.value(of(record, 23)),
            "DX" | "DT" | "DP" => return page.value(of(record, 65)) != id,
            _ => {}
        }
        false
    })
}

/// A file, translated if it is in ASCII, and its book.
struct Seen<'a> {
    file: &'a [u8],
    book: &'a [u8],
}

/// Inputs in words, their file answer, and whether one of that answer is one of them.
type Inputs = (&'static str, u64, fn(&Seen) -> bool);

/// 02 W3: inputs about the places of values in their fields.
#[rustfmt::skip]
const ABOUT_PLACES: [Inputs; 11] = [
    ("numbers with blanks before them, accepted", 0, |seen| seen.has_number([true, false])),
    ("numbers with blanks after them, accepted", 0, |seen| seen.has_number([false, true])),
    ("numbers between blanks, accepted", 0, |seen| seen.has_number([true, true])),
    ("text with blanks before it, accepted", 0, |seen| seen.has(|field, bytes| justified(field) == Justified::Text && begins_late(bytes))),
    ("field 7 with blanks beside it, accepted", 0, |seen| seen.has(|field, bytes| field == 7 && is_beside_blanks(bytes))),
    ("IDs of a payment at two places, accepted", 0, |seen| seen.has_two_places(is_of_payment, 23, is_detail)),
    ("IDs that repeat at another place, accepted", 0, |seen| seen.has_two_places(is_detail, 23, is_header)),
    ("schedule numbers so, accepted", 0, |seen| seen.has_two_places(is_header, 6, |_| false)),
    ("1,001 contents but not kinds, accepted", 0, |seen| seen.has_fewer_kinds()),
    ("book ascends once corrected alone, accepted", 0, |seen| !codes_ascend(seen.book, as_they_stand)),
    ("book ascends as it stands alone, 4", 4, |seen| codes_ascend(seen.book, as_they_stand) && !codes_ascend(seen.book, moved_left)),
];

fn is_header(code: &str) -> bool {
    matches!(code, "BN" | "BC" | "BW" | "BI" | "BA")
}

fn is_detail(code: &str) -> bool {
    matches!(code, "DN" | "DC" | "DW" | "DI" | "DA")
}

/// The detail, DX, DT or DP, whose Payment IDs stand at the same positions.
fn is_of_payment(code: &str) -> bool {
    is_detail(code) || matches!(code, "DX" | "DT" | "DP")
}

fn about_places_words(about: &str, column: &str) -> String {
    format!("{about}, in {column}")
}

/// The columns of a line about places.
const PAGES: [&str; 2] = ["EBCDIC", ASCII];

fn begins_late(bytes: &[u8]) -> bool {
    bytes[0] == BLANK && !EBCDIC.value(bytes).is_empty()
}

/// Whether blanks stand beside a value without a blank inside.
fn is_beside_blanks(bytes: &[u8]) -> bool {
    let value = EBCDIC.value(bytes);
    !value.is_empty() && value.len() < bytes.len() && !value.contains(&BLANK)
}

fn as_they_stand(code: &[u8]) -> Vec<u8> {
    code.to_vec()
}

fn moved_left(code: &[u8]) -> Vec<u8> {
    let mut moved = code.to_vec();
    EBCDIC.put(&mut moved, 0, 0, EBCDIC.value(code));
    moved
}

impl Seen<'_> {
    fn records(&self) -> impl Iterator<Item = (&'static str, &[u8])> {
        self.file.chunks_exact(RECORD).map(|record| (code_of(record), record))
    }

    /// Whether it has such a field.
    fn has(&self, is_so: impl Fn(u64, &[u8]) -> bool) -> bool {
        self.records()
            .any(|(code, record)| fields_of(code).any(|field| is_so(field, of(record, field))))
    }

    /// Whether it has a number with blanks before and after its digits, or not, as asked.
    fn has_number(&self, asked: [bool; 2]) -> bool {
        let blanks = |bytes: &[u8]| [bytes[0], bytes[bytes.len() - 1]].map(|byte| byte == BLANK);
        self.has(|field, bytes| {
            let is_number = justified(field) == Justified::Number && EBCDIC.is_padded(EBCDIC.value(bytes), Justified::Number);
            is_number && blanks(bytes) == asked
        })
    }

    /// Whether the same value stands at two places of this field, among such records from one that begins anew to the next.
    fn has_two_places(&self, is_wanted: fn(&str) -> bool, field: u64, begins_anew: fn(&str) -> bool) -> bool {
        let mut first_places = BTreeMap::new();
        self.records().any(|(code, record)| {
            if begins_anew(code) {
                first_places.clear();
            }
            let bytes = of(record, field);
            is_wanted(code) && *first_places.entry(EBCDIC.value(bytes)).or_insert(bytes) != bytes
        })
    }

    /// 02 W1: whether a batch has more than 1,000 contents of positions 23 to 54, but not more than 1,000 kinds.
    fn has_fewer_kinds(&self) -> bool {
        let kind = |tas: &[u8]| (78..=86).flat_map(|field| corrected(tas, field)).collect::<Vec<_>>();
        let (mut contents, mut kinds) = (HashSet::new(), HashSet::new());
        self.file.len() > 1_000 * RECORD
            && self.records().any(|(code, record)| {
                match code {
                    "DT" => {
                        contents.insert(&record[22..54]);
                        kinds.insert(kind(record));
                    }
                    "BT" if contents.len() > 1_000 && kinds.len() <= 1_000 => return true,
                    "BT" => {
                        contents.clear();
                        kinds.clear();
                    }
                    _ => {}
                }
                false
            })
    }
}

/// What is lent as today, in words, the file answer, and whether bytes lent with a file that draws it are so.
type Lent = (&'static str, u64, fn(&[u8], &[u8]) -> bool);

const FEBRUARY_29: [u8; 4] = [0xF0, 0xF2, 0xF2, 0xF9];

/// 02 W4: 14 is tested after 4 and before 5.
#[rustfmt::skip]
const LENT: [Lent; 16] = [
    ("nothing, accepted", 0, |today, _| today.is_empty()),
    ("a real day, accepted", 0, |today, _| day::read(today).is_some()),
    ("7 bytes, 14", 14, |today, _| today.len() == 7),
    ("9 bytes, 14", 14, |today, _| today.len() == 9),
    ("ASCII digits, 14", 14, |today, _| today.len() == 8 && today.iter().all(u8::is_ascii_digit)),
    ("29 February of a common year, 14", 14, |today, _| today.len() == 8 && today.ends_with(&FEBRUARY_29) && !today.starts_with(&[0xF0; 4])),
    ("year 0000, 14", 14, |today, _| today.starts_with(&[0xF0; 4])),
    ("month 00, 14", 14, |today, _| today.len() == 8 && today[4..6] == [0xF0; 2]),
    ("day 00, 14", 14, |today, _| today.len() == 8 && today[6..] == [0xF0; 2]),
    ("blanks, 14", 14, |today, _| today == [BLANK; 8]),
    ("hyphens, 14", 14, |today, _| today.contains(&0x60)),
    ("no real day with a file not nested, 14", 14, |_, file| !goes_on(&translated(file), |byte| byte)),
    ("no real day, 1", 1, is_no_day),
    ("no real day, 2", 2, is_no_day),
    ("no real day, 3", 3, is_no_day),
    ("no real day, 4", 4, is_no_day),
];

fn is_no_day(today: &[u8], _: &[u8]) -> bool {
    !today.is_empty() && day::read(today).is_none()
}

fn lent_words(lent: &str) -> String {
    format!("lent as today: {lent}")
}

/// 02 W4: today and the dates of a batch.
struct Dates {
    today: Option<Day>,
    created: Option<Day>,
    /// The first and the last day of the accounting month.
    month: Option<[Day; 2]>,
    is_month_moved: bool,
    /// All issue dates, or the one at fault.
    issued: Vec<Day>,
}

/// Batches in words, their kinds, their reason and field, and whether one of these is one of them.
type Batches = (&'static str, &'static str, [u64; 2], fn(&Dates) -> bool);

const SOUND: [u64; 2] = [0, 0];
const CREATION: [u64; 2] = [15, 17];
const MONTH: [u64; 2] = [15, 20];
const ISSUE: [u64; 2] = [15, 59];

/// 02 W4: each limit, what stands at it and what stands one past it. A month 31 days ahead is admitted, but has no day that is 30 days ahead.
#[rustfmt::skip]
const ABOUT_DATES: [Batches; 47] = [
    ("created today, sound", "C", SOUND, |dates| dates.created == dates.ahead(0)),
    ("created yesterday, sound", "C", SOUND, |dates| dates.created == dates.ahead(-1)),
    ("created tomorrow, 15 at 17", "C", CREATION, |dates| dates.created == dates.ahead(1)),
    ("month 30 days ahead, sound", "C", SOUND, |dates| dates.first() == dates.ahead(30)),
    ("month 31 days ahead, 15 not before 59", "C", ISSUE, |dates| dates.first() == dates.ahead(31)),
    ("month 32 days ahead, 15 at 20", "C", MONTH, |dates| dates.first() == dates.ahead(32)),
    ("January 30 days ahead, sound", "C", SOUND, |dates| dates.first() == dates.ahead(30) && dates.is_january()),
    ("January 31 days ahead, 15 not before 59", "C", ISSUE, |dates| dates.first() == dates.ahead(31) && dates.is_january()),
    ("January 32 days ahead, 15 at 20", "C", MONTH, |dates| dates.first() == dates.ahead(32) && dates.is_january()),
    ("1 February from 31 December, 15 at 20", "C", MONTH, |dates| dates.first() == dates.ahead(32) && dates.is_today(12, 31)),
    ("December from 1 January, sound", "C", SOUND, |dates| dates.last() == dates.ahead(-1) && dates.is_today(1, 1)),
    ("month 180 days back, sound", "C", SOUND, |dates| dates.last() == dates.ahead(-180)),
    ("month 181 days back, 15 at 20", "C", MONTH, |dates| dates.last() == dates.ahead(-181)),
    ("month of 28 days 180 days back, sound", "C", SOUND, |dates| dates.last() == dates.ahead(-180) && dates.days_in_month() == 28),
    ("month of 28 days 181 days back, 15 at 20", "C", MONTH, |dates| dates.last() == dates.ahead(-181) && dates.days_in_month() == 28),
    ("month of 29 days 180 days back, sound", "C", SOUND, |dates| dates.last() == dates.ahead(-180) && dates.days_in_month() == 29),
    ("month of 29 days 181 days back, 15 at 20", "C", MONTH, |dates| dates.last() == dates.ahead(-181) && dates.days_in_month() == 29),
    ("issue 180 days old, sound", "C", SOUND, |dates| dates.has_issue(dates.ahead(-180))),
    ("issue 181 days old, 15 at 59", "C", ISSUE, |dates| dates.has_issue(dates.ahead(-181)) && dates.is_in_month()),
    ("issue 30 days ahead, sound", "C", SOUND, |dates| dates.has_issue(dates.ahead(30))),
    ("issue 31 days ahead, 15 at 59", "C", ISSUE, |dates| dates.has_issue(dates.ahead(31)) && dates.is_in_month()),
    ("issue on the month's first day, sound", "C", SOUND, |dates| dates.has_issue(dates.first())),
    ("issue the day before, 15 at 59", "C", ISSUE, |dates| dates.has_issue(dates.first().map(|day| day - 1)) && dates.is_about_today()),
    ("issue on the month's last day, sound", "C", SOUND, |dates| dates.has_issue(dates.last())),
    ("issue the day after, 15 at 59", "C", ISSUE, |dates| dates.has_issue(dates.last().map(|day| day + 1)) && dates.is_about_today()),
    ("issue on 29 February, sound", "C", SOUND, |dates| dates.is_issued_on(2, 29)),
    ("issue of today, sound", "C", SOUND, |dates| dates.has_issue(dates.ahead(0))),
    ("today 29 February, sound", "C", SOUND, |dates| dates.is_today(2, 29)),
    ("today 31 December, sound", "C", SOUND, |dates| dates.is_today(12, 31)),
    ("today 1 January, sound", "C", SOUND, |dates| dates.is_today(1, 1)),
    ("January 2000, sound", "C", SOUND, |dates| dates.first() == Some(day::number(2_000, 1, 1)) && dates.today.is_some()),
    ("December 2099, sound", "C", SOUND, |dates| dates.last() == Some(day::number(2_099, 12, 31)) && dates.today.is_some()),
    ("today in 1999, sound", "C", SOUND, |dates| dates.is_in_year(1_999)),
    ("today in 1999, 15 at 20", "C", MONTH, |dates| dates.is_in_year(1_999)),
    ("today in 2100, sound", "C", SOUND, |dates| dates.is_in_year(2_100)),
    ("today in 2100, 15 at 20", "C", MONTH, |dates| dates.is_in_year(2_100)),
    ("today 0001-01-01, 15 at 17", "C", CREATION, |dates| dates.today == Some(0)),
    ("today 0001-01-01, 15 at 20", "C", MONTH, |dates| dates.today == Some(0)),
    ("today 9999-12-31, 15 at 20", "C", MONTH, |dates| dates.today == Some(day::LAST)),
    ("month moved, sound", "C", SOUND, |dates| dates.is_month_moved && dates.today.is_some()),
    ("month moved, 180 days back, sound", "C", SOUND, |dates| dates.is_month_moved && dates.last() == dates.ahead(-180)),
    ("month moved, 15 at 20", "C", MONTH, |dates| dates.is_month_moved),
    ("month moved, 15 at 59", "C", ISSUE, |dates| dates.is_month_moved),
    ("nothing lent, issue outside the month, sound", "C", SOUND, |dates| dates.today.is_none() && !dates.is_in_month()),
    ("no checks, created tomorrow, sound", "NWIA", SOUND, |dates| dates.today.is_some() && dates.created == dates.ahead(1)),
    ("no checks, month too far ahead, sound", "NWIA", SOUND, |dates| dates.today.is_some() && dates.first() > dates.ahead(31)),
    ("no checks, issue 31 days ahead, sound", "NWIA", SOUND, |dates| dates.has_issue(dates.ahead(31))),
];

impl Dates {
    /// Of a batch, with the place in it of the detail at fault, if one is, else 0.
    fn of(today: &[u8], batch: &[u8], at_fault: usize) -> Dates {
        let is_wanted = |place, record: &[u8]| is_detail(code_of(record)) && (at_fault == 0 || place == at_fault);
        let details = batch
            .chunks_exact(RECORD)
            .enumerate()
            .filter(|(place, record)| is_wanted(*place, record));
        let month = corrected(batch, 20);
        Dates {
            today: day::read(today),
            created: day::read(of(batch, 17)),
            month: day::read_month(&month),
            is_month_moved: month != of(batch, 20),
            issued: details.filter_map(|(_, detail)| day::read(of(detail, 59))).collect(),
        }
    }

    /// Nothing where nothing is lent.
    fn ahead(&self, days: i64) -> Option<Day> {
        self.today.map(|today| today + days)
    }

    fn first(&self) -> Option<Day> {
        self.month.map(|[first, _]| first)
    }

    fn last(&self) -> Option<Day> {
        self.month.map(|[_, last]| last)
    }

    fn days_in_month(&self) -> i64 {
        self.month.map_or(0, |[first, last]| last - first + 1)
    }

    fn is_january(&self) -> bool {
        self.first().is_some_and(|first| day::date(first)[1] == 1)
    }

    fn is_today(&self, month: i64, of_month: i64) -> bool {
        self.today.is_some_and(|today| day::date(today)[1..] == [month, of_month])
    }

    fn is_issued_on(&self, month: i64, of_month: i64) -> bool {
        let is_so = |day: &Day| day::date(*day)[1..] == [month, of_month];
        self.today.is_some() && self.issued.iter().any(is_so)
    }

    fn is_in_year(&self, year: i64) -> bool {
        self.today.is_some_and(|today| day::date(today)[0] == year)
    }

    fn has_issue(&self, day: Option<Day>) -> bool {
        day.is_some_and(|day| self.issued.contains(&day))
    }

    fn is_in_month(&self) -> bool {
        let lies = |day: &Day| self.month.is_some_and(|[first, last]| (first..=last).contains(day));
        self.issued.iter().all(lies)
    }

    /// Whether the issue dates are neither too old nor too far ahead.
    fn is_about_today(&self) -> bool {
        let lies = |day: &Day| self.today.is_some_and(|today| (today - 180..=today + 30).contains(day));
        self.issued.iter().all(lies)
    }
}

impl Counts {
    fn add(&mut self, key: String, count: u64) {
        *self.0.entry(key).or_default() += count;
    }

    fn count(&mut self, trial: &Trial) {
        let (answer, file, report) = (trial.verdicts.proved, &trial.input.file[..], lent(&trial.verdicts.proved_space));
        self.add(answer_words(answer / 100_000), 1);
        if is_ascii(file) {
            self.add(ascii_answer_words(answer / 100_000), 1);
        }
        for (about, _) in ABOUT_ASCII.iter().filter(|(_, is_so)| is_so(file, answer)) {
            self.add(about_ascii_words(about), 1);
        }
        let today = &trial.input.today[..];
        for (lent, ..) in LENT
            .iter()
            .filter(|(_, given, is_so)| answer / 100_000 == *given && is_so(today, file))
        {
            self.add(lent_words(lent), 1);
        }
        let (translated, page) = (translated(file), PAGES[usize::from(is_ascii(file))]);
        if answer == 0 {
            self.count_rows(is_ascii(file), &translated, report);
            self.count_dates(today, &translated, report, page);
        }
        self.count_places(trial, &translated, page);
    }

    fn count_places(&mut self, trial: &Trial, file: &[u8], page: &str) {
        let seen = &Seen {
            file,
            book: &trial.input.book,
        };
        let given = trial.verdicts.proved / 100_000;
        for (about, ..) in ABOUT_PLACES.iter().filter(|(_, answer, is_so)| *answer == given && is_so(seen)) {
            self.add(about_places_words(about, page), 1);
        }
        let (fields, codes) = trial.moved_values;
        for (about, count) in MOVED_AT_RANDOM.iter().zip([u64::from(fields + codes > 0), fields, codes]) {
            self.add(about_places_words(about, page), count);
        }
    }

    fn count_rows(&mut self, is_ascii: bool, file: &[u8], report: &[u8]) {
        for (batch, [.., reason, _, field]) in batches(file, report) {
            for column in [code_of(batch)].into_iter().chain(is_ascii.then_some(ASCII)) {
                self.add(row_words(reason, field, column), 1);
                if reason != 12 && has_many_tas(batch) {
                    self.add(many_tas_words(OF_MANY_TAS[usize::from(reason > 0)], column), 1);
                }
            }
        }
    }

    fn count_dates(&mut self, today: &[u8], file: &[u8], report: &[u8], page: &str) {
        for (batch, [first, .., reason, record, field]) in batches(file, report) {
            if ![SOUND, CREATION, MONTH, ISSUE].contains(&[reason, field]) {
                continue;
            }
            let at_fault = if field == 59 { record - first } else { 0 };
            let (letter, dates) = (&code_of(batch)[1..], &Dates::of(today, batch, at_fault as usize));
            for (about, letters, said, is_so) in ABOUT_DATES {
                if letters.contains(letter) && said == [reason, field] && is_so(dates) {
                    self.add(about_places_words(about, page), 1);
                }
            }
        }
    }

    fn print_places(&mut self, lines: &[&str], not_seen: &mut Vec<String>) {
        for about in lines {
            print!("{about:>44}");
            for page in PAGES {
                print!("   {page} {:>8}", self.take(about_places_words(about, page), not_seen));
            }
            println!();
        }
    }

    /// Takes a count out, so that what is not allowed is left.
    fn take(&mut self, key: String, not_seen: &mut Vec<String>) -> u64 {
        self.0.remove(&key).unwrap_or_else(|| {
            not_seen.push(key);
            0
        })
    }

    fn print(mut self) {
        let mut not_seen = Vec::new();
        println!("file answers:");
        for answer in 0..=14 {
            print!("{answer:>4} {:>8}", self.take(answer_words(answer), &mut not_seen));
            // 01 File answers 1: a file without bytes is not in ASCII.
            if answer != 1 {
                print!("   {ASCII} {:>6}", self.take(ascii_answer_words(answer), &mut not_seen));
            }
            println!();
        }
        println!("batch reason, 004 field, rows:");
        for &(reason, field, letters) in ALLOWED {
            print!("{reason:>4} {field:>4}");
            for column in columns(letters) {
                print!("   {column} {:>6}", self.take(row_words(reason, field, &column), &mut not_seen));
            }
            println!();
        }
        println!("batches with more than 1,000 DT, beside those of reason 12:");
        for said in OF_MANY_TAS {
            print!("{said:>28}");
            for column in columns("NCWIA") {
                print!("   {column} {:>6}", self.take(many_tas_words(said, &column), &mut not_seen));
            }
            println!();
        }
        println!("files about ASCII:");
        for (about, _) in ABOUT_ASCII {
            println!("{about:>40} {:>6}", self.take(about_ascii_words(about), &mut not_seen));
        }
        println!("inputs about the places of values in their fields:");
        self.print_places(&ABOUT_PLACES.map(|(about, ..)| about), &mut not_seen);
        println!("lent as today, and file answer:");
        for (lent, ..) in LENT {
            println!("{lent:>40} {:>6}", self.take(lent_words(lent), &mut not_seen));
        }
        println!("batches about their dates:");
        self.print_places(&ABOUT_DATES.map(|(about, ..)| about), &mut not_seen);
        println!("moved at random, and judged as before by both:");
        self.print_places(&MOVED_AT_RANDOM, &mut not_seen);
        println!("not seen: {}", listed(not_seen));
        println!("seen, but not allowed: {}", listed(self.0.into_keys().collect()));
    }
}

/// 02 W3: what was moved of every input, to be judged once more.
const MOVED_AT_RANDOM: [&str; 3] = ["inputs with a value moved", "fields moved", "codes of the book moved"];

fn listed(list: Vec<String>) -> String {
    if list.is_empty() {
        return "none".to_string();
    }
    list.join("; ")
}

/// The head and as many batch rows as it tells of, as far as the report reaches.
fn rows(report: &[u8]) -> impl Iterator<Item = [u64; 8]> + '_ {
    let number = |bytes: &[u8]| u64::from_le_bytes(bytes.try_into().expect("eight bytes"));
    let batches = report.get(48..56).map_or(0, number);
    let row = move |bytes: &[u8]| std::array::from_fn(|place| number(&bytes[place * 8..place * 8 + 8]));
    report.chunks_exact(64).take(batches.saturating_add(1) as usize).map(row)
}

/// The batches of an accepted file, each with its row.
fn batches<'a>(file: &'a [u8], report: &'a [u8]) -> impl Iterator<Item = (&'a [u8], [u64; 8])> {
    let batch = |[first, records, ..]: [u64; 8]| &file[(first as usize - 1) * RECORD..][..records as usize * RECORD];
    rows(report).skip(1).map(move |row| (batch(row), row))
}

/// What both judges made of an input; no answer where the independent one panicked.
#[derive(Default)]
struct Verdicts {
    proved: u64,
    independent: Option<u64>,
    proved_space: Vec<u8>,
    independent_space: Vec<u8>,
    /// 02 W4: by the entry that takes no day, where none is lent.
    unlent: u64,
    unlent_space: Vec<u8>,
    file_before: Vec<u8>,
    book_before: Vec<u8>,
    today_before: Vec<u8>,
}

impl Verdicts {
    fn judge(&mut self, input: &Input) {
        self.file_before.clone_from(&input.file);
        self.book_before.clone_from(&input.book);
        self.today_before.clone_from(&input.today);
        for space in [&mut self.proved_space, &mut self.independent_space, &mut self.unlent_space] {
            space.clear();
            space.resize(GUARD, 0xA5);
            space.extend_from_slice(&input.report);
            space.resize(input.report.len() + 2 * GUARD, 0xA5);
        }
        let lent = GUARD..GUARD + input.report.len();
        let Input { file, book, today, .. } = input;
        self.proved = proved::judge(file, book, today, &mut self.proved_space[lent.clone()]);
        if today.is_empty() {
            self.unlent = proved::judge_unlent(file, book, &mut self.unlent_space[lent.clone()]);
        }
        let report = &mut self.independent_space[lent];
        self.independent = catch_unwind(AssertUnwindSafe(|| judge::judge(file, book, today, report))).ok();
    }

    /// In words, the first thing that is not as it must be.
    fn difference(&self, input: &Input) -> Option<String> {
        if self.independent != Some(self.proved) {
            return Some(format!("answers: proved {}, independent {:?}", self.proved, self.independent));
        }
        if self.file_before != input.file || self.book_before != input.book || self.today_before != input.today {
            return Some("the file, the book or today was changed".to_string());
        }
        if input.today.is_empty() && (self.unlent, &self.unlent_space) != (self.proved, &self.proved_space) {
            let (unlent, proved) = (self.unlent, self.proved);
            return Some(format!(
                "the entry without today: {unlent}, with nothing lent: {proved}, or their reports differ"
            ));
        }
        let (one, other) = (lent(&self.proved_space), lent(&self.independent_space));
        if let Some(place) = one.iter().zip(other).position(|(one, other)| one != other) {
            let (row, one, other) = (place / 64, rows(one).nth(place / 64), rows(other).nth(place / 64));
            return Some(format!("report byte {place}, row {row}: proved {one:?}, independent {other:?}"));
        }
        let written = if self.proved == 0 { 64 * rows(one).count() } else { 0 };
        if one[written..] != input.report[written..] {
            return Some("both changed bytes of the report that are no row".to_string());
        }
        let guards = [&self.proved_space, &self.independent_space].map(|space| [&space[..GUARD], &space[space.len() - GUARD..]]);
        let whole = guards.as_flattened().iter().all(|guard| **guard == [0xA5; GUARD]);
        (!whole).then(|| "a byte beside the report space was changed".to_string())
    }

    /// In words, what is not as in the other verdicts on the same value.
    fn change_from(&self, other: &Verdicts) -> Option<String> {
        if (self.proved, self.independent) != (other.proved, other.independent) {
            return Some(format!("answers: {}, before {}", self.proved, other.proved));
        }
        let same = self.proved_space == other.proved_space && self.independent_space == other.independent_space;
        (!same).then(|| "the reports are not as before".to_string())
    }
}

/// An input with what both judges made of it, and the same for the input with every value moved at random (02 W3).
#[derive(Default)]
struct Trial {
    input: Input,
    verdicts: Verdicts,
    moved: Input,
    verdicts_moved: Verdicts,
    /// Fields of the file and codes of the book that have other bytes in the moved input.
    moved_values: (u64, u64),
}

impl Trial {
    fn run(&mut self, recipe: &Recipe, dropped: &HashSet<Piece>) {
        recipe.make(dropped, &mut self.input);
        self.verdicts.judge(&self.input);
        self.moved.clone_from(&self.input);
        self.moved_values = self.moved.move_all(recipe.seed());
        self.verdicts_moved.judge(&self.moved);
    }

    /// In words, the first thing that is not as it must be, with the input as it is and with its values moved.
    fn difference(&self) -> Option<String> {
        let of_moved = self.verdicts_moved.difference(&self.moved);
        let of_moved = of_moved.or_else(|| self.verdicts_moved.change_from(&self.verdicts));
        let of_moved = of_moved.map(|words| format!("with every value moved at random: {words}"));
        self.verdicts.difference(&self.input).or(of_moved)
    }
}

/// The report space between its guards.
fn lent(space: &[u8]) -> &[u8] {
    &space[GUARD..space.len() - GUARD]
}

fn print_verdict(judge: &str, answer: Option<u64>, space: &[u8]) {
    println!("{judge} judge: {answer:?}");
    if answer == Some(0) {
        rows(lent(space)).for_each(|row| println!("  {row:?}"));
    }
}

/// Drops pieces one by one while a difference stays.
fn shrink(recipe: &Recipe) -> HashSet<Piece> {
    let (mut trial, mut dropped) = (Trial::default(), HashSet::new());
    let mut judged = 0;
    loop {
        let before = dropped.len();
        for piece in recipe.pieces() {
            if judged < SHRINKING && dropped.insert(piece) {
                trial.run(recipe, &dropped);
                judged += 1 + trial.input.file.len() / RECORD;
                if trial.difference().is_none() {
                    dropped.remove(&piece);
                }
            }
        }
        if judged >= SHRINKING || dropped.len() == before {
            return dropped;
        }
    }
}

fn show(seed: u64, recipe: &Recipe, dropped: &HashSet<Piece>) -> Trial {
    let mut trial = Trial::default();
    trial.run(recipe, dropped);
    let Trial { input, verdicts, .. } = &trial;
    let [file, book, today, report] = [&input.file, &input.book, &input.today, &input.report].map(Vec::len);
    println!("input seed {seed}: file {file} bytes, book {book} bytes, today {today} bytes, report {report} bytes");
    print!("{}", recipe.describe(dropped));
    print_verdict("proved", Some(verdicts.proved), &verdicts.proved_space);
    print_verdict("independent", verdicts.independent, &verdicts.independent_space);
    if verdicts.difference(input).is_none() && trial.difference().is_some() {
        println!("with every value moved at random:");
        print_verdict("proved", Some(trial.verdicts_moved.proved), &trial.verdicts_moved.proved_space);
        print_verdict(
            "independent",
            trial.verdicts_moved.independent,
            &trial.verdicts_moved.independent_space,
        );
    }
    println!("difference: {}", trial.difference().unwrap_or("none".to_string()));
    trial
}

struct Run {
    inputs: u64,
    seed: u64,
    begun: Instant,
    done: AtomicU64,
    /// The index of the first difference found so far.
    first: AtomicU64,
}

impl Run {
    /// Judges every `THREADS`th input from `start` on, up to the first difference.
    fn part(&self, start: u64) -> Counts {
        let (mut trial, mut counts) = (Trial::default(), Counts::default());
        for index in (start..self.inputs).step_by(THREADS as usize) {
            if index > self.first.load(Relaxed) {
                break;
            }
            trial.run(&Recipe::new(input_seed(self.seed, index)), &HashSet::new());
            if trial.difference().is_some() {
                self.first.fetch_min(index, Relaxed);
                break;
            }
            counts.count(&trial);
            let done = self.done.fetch_add(1, Relaxed) + 1;
            if done.is_multiple_of(10_000) {
                eprintln!("{done} inputs, {:.0} a second", done as f64 / self.begun.elapsed().as_secs_f64());
            }
        }
        counts
    }
}

fn run(inputs: u64, seed: u64) -> ExitCode {
    let (begun, done, first) = (Instant::now(), AtomicU64::new(0), AtomicU64::new(u64::MAX));
    let run = &Run {
        inputs,
        seed,
        begun,
        done,
        first,
    };
    let mut counts = Counts::default();
    thread::scope(|scope| {
        let parts: Vec<_> = (0..THREADS).map(|start| scope.spawn(move || run.part(start))).collect();
        for part in parts {
            let Counts(part) = part.join().expect("a part of the run ends");
            part.into_iter().for_each(|(key, count)| counts.add(key, count));
        }
    });
    let first = run.first.load(Relaxed);
    if first < u64::MAX {
        let seed = input_seed(seed, first);
        let recipe = Recipe::new(seed);
        println!("the judges differ on input {first}");
        show(seed, &recipe, &HashSet::new());
        println!("made smaller:");
        show(seed, &recipe, &shrink(&recipe));
        return ExitCode::FAILURE;
    }
    println!("{inputs} inputs from seed {seed}, no difference");
    counts.print();
    ExitCode::SUCCESS
}

fn one(seed: u64, folder: Option<&str>) -> ExitCode {
    let trial = show(seed, &Recipe::new(seed), &HashSet::new());
    if let Some(Err(error)) = folder.map(|folder| write(Path::new(folder), &trial)) {
        eprintln!("{error}");
        return ExitCode::FAILURE;
    }
    ExitCode::SUCCESS
}

fn write(folder: &Path, Trial { input, moved, .. }: &Trial) -> io::Result<()> {
    fs::create_dir_all(folder)?;
    fs::write(folder.join("file.bin"), &input.file)?;
    fs::write(folder.join("book.bin"), &input.book)?;
    fs::write(folder.join("today.bin"), &input.today)?;
    fs::write(folder.join("moved-file.bin"), &moved.file)?;
    fs::write(folder.join("moved-book.bin"), &moved.book)?;
    fs::write(folder.join("report-size"), format!("{}\n", input.report.len()))
}

fn main() -> ExitCode {
    let arguments: Vec<_> = env::args().skip(1).collect();
    let words: Vec<_> = arguments.iter().map(String::as_str).collect();
    let number = |word: &str| word.parse::<u64>().ok();
    let ended = match words[..] {
        [] => Some(run(INPUTS, SEED)),
        ["--one", seed] => number(seed).map(|seed| one(seed, None)),
        ["--one", seed, "--write", folder] => number(seed).map(|seed| one(seed, Some(folder))),
        [inputs] => number(inputs).map(|inputs| run(inputs, SEED)),
        [inputs, seed] => number(inputs).zip(number(seed)).map(|(inputs, seed)| run(inputs, seed)),
        _ => None,
    };
    ended.unwrap_or_else(|| {
        eprintln!("compare [N [SEED]], or compare --one INPUT_SEED [--write DIR]");
        ExitCode::FAILURE
    })
}
