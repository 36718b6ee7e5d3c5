//! A judge of SRF files, read from document 01 (the rules), 02 (requests W1 to W4), 004 (layouts and values) and the readings. It stands in
//! document 01's order: bytes, nesting, code book, file answers, report, batch reasons; today (02 W4) follows the code book. "01 X" cites a
//! section of document 01, "02 Wn" a request, "004 n" a field. Fields stay as they were sent and are corrected (02 W3) where they are read.

use crate::ascii;
use crate::correct::{self, digits, is_digits, move_left, value, BLANK, ZERO};
use crate::layout::{self, place, Kind, RECORD};
use std::borrow::Cow;
use std::collections::HashSet;
use std::ops::Range;

type Raw = [u8; RECORD];

/// Returns 0 and writes the rows, or returns reason x 100,000 + record and leaves the report untouched (01 File answers, Report).
/// 02 W2: the answer is that of the translated file, which is as long as the file; the book and today stay as they are. 02 W4: no bytes of
/// today are nothing lent.
pub fn judge(file: &[u8], book: &[u8], today: &[u8], report: &mut [u8]) -> u64 {
    match file_answer(&ascii::translated(file), book, today, report.len()) {
        Ok(accepted) => {
            accepted.write(report);
            0
        }
        Err(Refusal { reason, record }) => reason as u64 * 100_000 + record as u64,
    }
}

// ---------------------------------------------------------------- 01 Bytes

const HYPHEN: u8 = ebcdic(b'-');

/// 01 Bytes: the code page, as far as the documents' own values need it.
const fn ebcdic(ascii: u8) -> u8 {
    match ascii {
        b'A'..=b'I' => 0xC1 + (ascii - b'A'),
        b'J'..=b'R' => 0xD1 + (ascii - b'J'),
        b'S'..=b'Z' => 0xE2 + (ascii - b'S'),
        b'a'..=b'i' => 0x81 + (ascii - b'a'),
        b'j'..=b'r' => 0x91 + (ascii - b'j'),
        b's'..=b'z' => 0xA2 + (ascii - b's'),
        b'0'..=b'9' => 0xF0 + (ascii - b'0'),
        b'-' => 0x60,
        _ => 0x40,
    }
}

/// A value as it stands in a field of width N: left justified, blanks on the right (004 section 1.7).
const fn text<const N: usize>(ascii: &str) -> [u8; N] {
    let mut bytes = [BLANK; N];
    let mut i = 0;
    while i < N && i < ascii.len() {
        bytes[i] = ebcdic(ascii.as_bytes()[i]);
        i += 1;
    }
    bytes
}

/// 004 section 1.2: the second byte of a batch header's or a detail's record code.
const NACHA: u8 = ebcdic(b'N');
const CHECK: u8 = ebcdic(b'C');
const WIRE: u8 = ebcdic(b'W');
const INTERNATIONAL: u8 = ebcdic(b'I');
const ADJUSTMENT: u8 = ebcdic(b'A');

const FH: [u8; 2] = text("FH");
const BN: [u8; 2] = text("BN");
const BC: [u8; 2] = text("BC");
const BW: [u8; 2] = text("BW");
const BI: [u8; 2] = text("BI");
const BA: [u8; 2] = text("BA");
const DN: [u8; 2] = text("DN");
const DC: [u8; 2] = text("DC");
const DW: [u8; 2] = text("DW");
const DI: [u8; 2] = text("DI");
const DA: [u8; 2] = text("DA");
const DX: [u8; 2] = text("DX");
const DT: [u8; 2] = text("DT");
const DP: [u8; 2] = text("DP");
const BT: [u8; 2] = text("BT");
const FT: [u8; 2] = text("FT");

/// 004 section 1.2: record codes. None is no code at all.
fn kind(record: &Raw) -> Option<Kind> {
    match [record[0], record[1]] {
        FH => Some(Kind::FileHeader),
        BN | BC | BW | BI | BA => Some(Kind::BatchHeader),
        DN | DC | DW | DI | DA => Some(Kind::Detail),
        DX => Some(Kind::Party),
        DT => Some(Kind::TasBetc),
        DP => Some(Kind::Procurement),
        BT => Some(Kind::BatchTrailer),
        FT => Some(Kind::FileTrailer),
        _ => None,
    }
}

/// The batch letter of a batch header or a detail.
fn letter(record: &Raw) -> u8 {
    record[1]
}

/// 01 Bytes: the stretches outside fillers. Every filler but 11 ends its record.
fn stretches(kind: Kind) -> [Range<usize>; 2] {
    let before = |filler| [0..place(filler).start, 0..0];
    match kind {
        Kind::FileHeader => before(4),
        Kind::BatchHeader => [0..place(11).start, place(11).end..place(21).start],
        Kind::Detail => before(63),
        Kind::Party => before(75),
        Kind::TasBetc => before(89),
        Kind::Procurement => before(97),
        Kind::BatchTrailer => before(101),
        Kind::FileTrailer => before(106),
    }
}

/// 01 Bytes: every byte outside fillers must be 40-FF. The least byte of a stretch is taken without an early exit, so that it vectorises.
fn has_low_byte(record: &Raw) -> bool {
    let least = |stretch: Range<usize>| record[stretch].iter().fold(0xFF, |least: u8, &byte| least.min(byte));
    kind(record).is_some_and(|kind| stretches(kind).into_iter().any(|stretch| least(stretch) < 0x40))
}

fn is_blank(field: &[u8]) -> bool {
    field.iter().all(|&byte| byte == BLANK)
}

fn is_zeros(field: &[u8]) -> bool {
    field.iter().all(|&byte| byte == ZERO)
}

/// The value of at most 19 digits.
fn decimal(digits: &[u8]) -> u64 {
    digits.iter().fold(0, |value, byte| value * 10 + u64::from(byte - ZERO))
}

/// The value of a number, wherever its digits stand (02 W3); no number but the amounts is wider than 18.
fn number(field: &[u8]) -> Option<u64> {
    digits(field).map(decimal)
}

/// 01 Report splits totals here, and so do the amounts: twenty digits pass 64 bits, ten do not.
const TEN_TO_10: u128 = 10_000_000_000;

/// The value of an amount of twenty digits once corrected (004 9, 24, 87, 96, 100, 105).
fn amount(field: &[u8]) -> Option<u128> {
    let digits = digits(field)?;
    let (high, low) = digits.split_at(digits.len().saturating_sub(10));
    Some(u128::from(decimal(high)) * TEN_TO_10 + u128::from(decimal(low)))
}

// ---------------------------------------------------------------- 01 Nesting

/// The last record read.
#[derive(Clone, Copy)]
enum Stage {
    Start,
    FileHeader,
    BatchHeader,
    Detail,
    Party,
    /// With the number of DT of the payment so far.
    TasBetc(usize),
    /// With the number of DP of the payment so far.
    Procurement(usize),
    BatchTrailer,
    FileTrailer,
}

#[derive(Clone, Copy)]
struct Nesting<'a> {
    stage: Stage,
    /// Of the last batch header.
    letter: u8,
    /// Of the last detail, without the blanks around it (02 W3).
    payment_id: &'a [u8],
}

/// 01 Nesting: 0 to 100 DT and 0 to 100 DP in a payment.
const MOST_IN_PAYMENT: usize = 100;

impl<'a> Nesting<'a> {
    /// The state after one more record, or None where the records so far begin no legal file.
    fn step(self, record: &'a Raw) -> Option<Self> {
        let id = value(&record[place(23)]); // 65, 77 and 91 stand in the same place
        let own_id = || id == self.payment_id;
        let own_letter = || letter(record) == self.letter;
        let mixes_checks = || (letter(record) == CHECK) != (self.letter == CHECK);
        let to = |stage| Some(Nesting { stage, ..self });

        match (kind(record)?, self.stage) {
            (Kind::FileHeader, Stage::Start) => to(Stage::FileHeader),

            (Kind::BatchHeader, Stage::BatchTrailer) if mixes_checks() => None,
            (Kind::BatchHeader, Stage::FileHeader | Stage::BatchTrailer) => Some(Nesting {
                stage: Stage::BatchHeader,
                letter: letter(record),
                ..self
            }),

            (Kind::Detail, Stage::BatchHeader | Stage::Party | Stage::TasBetc(_) | Stage::Procurement(_)) if own_letter() => {
                Some(Nesting {
                    stage: Stage::Detail,
                    payment_id: id,
                    ..self
                })
            }

            (Kind::Party, Stage::Detail | Stage::Party) if own_id() => to(Stage::Party),

            (Kind::TasBetc, Stage::Party) if own_id() => to(Stage::TasBetc(1)),
            (Kind::TasBetc, Stage::TasBetc(n)) if own_id() && n < MOST_IN_PAYMENT => to(Stage::TasBetc(n + 1)),

            (Kind::Procurement, Stage::Party | Stage::TasBetc(_)) if own_id() => to(Stage::Procurement(1)),
            (Kind::Procurement, Stage::Procurement(n)) if own_id() && n < MOST_IN_PAYMENT => to(Stage::Procurement(n + 1)),

            (Kind::BatchTrailer, Stage::Party | Stage::TasBetc(_) | Stage::Procurement(_)) => to(Stage::BatchTrailer),

            (Kind::FileTrailer, Stage::BatchTrailer) => to(Stage::FileTrailer),

            _ => None,
        }
    }
}

/// 01 File answers 5: Err with the first record that begins no legal file, or last + 1 where only the end is missing.
fn nesting(records: &[Raw]) -> Result<(), usize> {
    let mut state = Nesting {
        stage: Stage::Start,
        letter: BLANK,
        payment_id: &[],
    };
    for (index, record) in records.iter().enumerate() {
        state = state.step(record).ok_or(index + 1)?;
    }
    match state.stage {
        Stage::FileTrailer => Ok(()),
        _ => Err(records.len() + 1),
    }
}

// ---------------------------------------------------------------- 01 Code book

/// Entries: a code, moved left (02 W3), and in kinds 2 and 3 a flag after it.
type Entries<'a, const ENTRY: usize> = Cow<'a, [[u8; ENTRY]]>;

struct Book<'a> {
    input_systems: Entries<'a, 40>,
    locations: Entries<'a, 9>,
    betcs: Entries<'a, 9>,
    payment_types: Entries<'a, 25>,
    states: Entries<'a, 2>,
    countries: Entries<'a, 2>,
    currencies: Entries<'a, 3>,
}

const LONGEST_BOOK: usize = 16_777_216;

impl<'a> Book<'a> {
    /// None where unsound.
    fn read(book: &'a [u8]) -> Option<Self> {
        if book.len() > LONGEST_BOOK {
            return None;
        }
        let rest = &mut &*book;
        let read = Book {
            input_systems: section(rest, 1, 40)?,
            locations: section(rest, 2, 8)?,
            betcs: section(rest, 3, 8)?,
            payment_types: section(rest, 4, 25)?,
            states: section(rest, 5, 2)?,
            countries: section(rest, 6, 2)?,
            currencies: section(rest, 7, 3)?,
        };
        rest.is_empty().then_some(read)
    }
}

/// Takes one section off the rest of the book. A code fills the first `code` bytes of an entry; a flag may follow. 02 W3: codes are
/// corrected before their order is tested.
fn section<'a, const ENTRY: usize>(rest: &mut &'a [u8], kind: u16, code: usize) -> Option<Entries<'a, ENTRY>> {
    let (length, after) = rest.split_first_chunk()?;
    let (body, after) = after.split_at_checked(u32::from_le_bytes(*length) as usize)?;
    let (stated_kind, body) = body.split_first_chunk()?;
    let (entries, part_of_an_entry) = body.as_chunks();
    let entries = with_codes_left(entries, code);
    *rest = after;

    let sound = u16::from_le_bytes(*stated_kind) == kind
        && part_of_an_entry.is_empty()
        && entries.windows(2).all(|pair| pair[0][..code] < pair[1][..code])
        && entries
            .iter()
            .all(|entry: &[u8; ENTRY]| entry[code..].iter().all(|&flag| flag <= 1));
    sound.then_some(entries)
}

/// The entries as they stand, unless a code begins with a blank.
fn with_codes_left<const ENTRY: usize>(entries: &[[u8; ENTRY]], code: usize) -> Entries<'_, ENTRY> {
    let mut entries = Cow::Borrowed(entries);
    if entries.iter().any(|entry| entry[0] == BLANK) {
        entries.to_mut().iter_mut().for_each(|entry| move_left(&mut entry[..code]));
    }
    entries
}

/// The entry with the code that a field holds; codes ascend.
fn find<'a, const ENTRY: usize>(section: &'a [[u8; ENTRY]], field: &[u8]) -> Option<&'a [u8; ENTRY]> {
    let (mut code, value) = ([BLANK; ENTRY], value(field));
    code[..value.len()].copy_from_slice(value);
    let found = section.binary_search_by(|entry| entry[..field.len()].cmp(&code[..field.len()]));
    found.ok().map(|index| &section[index])
}

/// Kind 2: 1 for a CARS Reporter. Kind 3: 1 for a credit.
fn flag(entry: &[u8; 9]) -> bool {
    entry[8] == 1
}

// ---------------------------------------------------------------- 02 W4: today

/// 01 Date: a real day. Days compare as they follow each other.
#[derive(Clone, Copy, PartialEq, Eq, PartialOrd, Ord)]
struct Day {
    year: u64,
    month: u64,
    day: u64,
}

const FIRST_DAY: Day = Day { year: 1, month: 1, day: 1 };
const LAST_DAY: Day = Day {
    year: 9999,
    month: 12,
    day: 31,
};

/// 0 where there is no such month.
fn days_in(year: u64, month: u64) -> u64 {
    let leap = year.is_multiple_of(4) && (!year.is_multiple_of(100) || year.is_multiple_of(400));
    match month {
        1 | 3 | 5 | 7 | 8 | 10 | 12 => 31,
        4 | 6 | 9 | 11 => 30,
        2 if leap => 29,
        2 => 28,
        _ => 0,
    }
}

impl Day {
    /// 01 Date: Gregorian, years 0001 to 9999. Dates are not corrected (02 W3): every byte is a digit where it stands.
    fn read(year: &[u8], month: &[u8], day: &[u8]) -> Option<Day> {
        if ![year, month, day].into_iter().all(is_digits) {
            return None;
        }
        let (year, month, day) = (decimal(year), decimal(month), decimal(day));
        let is_real = year >= 1 && (1..=days_in(year, month)).contains(&day);
        is_real.then_some(Day { year, month, day })
    }

    /// The last day has none after it, and is its own.
    fn next(self) -> Day {
        match self {
            LAST_DAY => self,
            Day { year, month, day } if day < days_in(year, month) => Day { day: day + 1, ..self },
            Day { year, month: 12, .. } => Day {
                year: year + 1,
                ..FIRST_DAY
            },
            Day { month, .. } => Day {
                month: month + 1,
                day: 1,
                ..self
            },
        }
    }

    /// The first day has none before it, and is its own.
    fn previous(self) -> Day {
        match self {
            FIRST_DAY => self,
            Day { day: 2.., .. } => Day { day: self.day - 1, ..self },
            Day { year, month: 1, .. } => Day {
                year: year - 1,
                ..LAST_DAY
            },
            Day { year, month, .. } => Day {
                month: month - 1,
                day: days_in(year, month - 1),
                ..self
            },
        }
    }

    /// Of its month.
    fn last_of_month(self) -> Day {
        Day {
            day: days_in(self.year, self.month),
            ..self
        }
    }
}

/// Today and the days that 02 W4 sets limits at, each reached from today day by day. Where the calendar ends before a limit it sets none,
/// and its end is as good: no day lies past it.
struct Today {
    today: Day,
    back_180: Day,
    ahead_30: Day,
    ahead_31: Day,
}

impl Today {
    /// None where the bytes are not eight, or no real day.
    fn read(lent: &[u8]) -> Option<Today> {
        let lent: &[u8; 8] = lent.try_into().ok()?;
        let today = plain_date(lent)?;
        let walk = |steps, step: fn(Day) -> Day| (0..steps).fold(today, |day, _| step(day));
        Some(Today {
            today,
            back_180: walk(180, Day::previous),
            ahead_30: walk(30, Day::next),
            ahead_31: walk(31, Day::next),
        })
    }

    /// 004 17.
    fn admits_creation(&self, created: Day) -> bool {
        created <= self.today
    }

    /// 004 20, by the month's first day. The rule on years never decides alone: of later years, only a January is 31 days ahead or less.
    fn admits_month(&self, first: Day) -> bool {
        let year_holds = first.year <= self.today.year || (first.month == 1 && self.today.month == 12);
        first <= self.ahead_31 && first.last_of_month() >= self.back_180 && year_holds
    }

    /// 004 59, with the first day of the accounting month.
    fn admits_issue(&self, issued: Day, first: Day) -> bool {
        (first..=first.last_of_month()).contains(&issued) && (self.back_180..=self.ahead_30).contains(&issued)
    }
}

// ---------------------------------------------------------------- 01 File answers

/// Numbered as in the table.
#[derive(Clone, Copy)]
enum FileReason {
    Empty = 1,
    Length = 2,
    TooManyRecords = 3,
    Book = 4,
    Nesting = 5,
    Report = 6,
    LowByte = 7,
    InputSystem = 8,
    Version = 9,
    TrailerNumber = 10,
    RecordCount = 11,
    DetailCount = 12,
    TotalAmount = 13,
    /// 02 W4.
    NoToday = 14,
}

struct Refusal {
    reason: FileReason,
    record: usize,
}

/// What is lent beside the file and the report.
struct Lent<'a> {
    book: Book<'a>,
    today: Option<Today>,
}

/// What the rows are written from.
struct Accepted<'a> {
    lent: Lent<'a>,
    batches: Vec<Batch<'a>>,
    records: usize,
    payments: u64,
    total: u128,
}

const MOST_RECORDS: usize = 65_535;
const VERSION: [u8; 3] = text("201");

fn refusal(reason: FileReason, record: usize) -> Refusal {
    Refusal { reason, record }
}

fn refuse_if(applies: bool, reason: FileReason, record: usize) -> Result<(), Refusal> {
    if applies {
        Err(refusal(reason, record))
    } else {
        Ok(())
    }
}

/// 01 File answers, in the table's order, with 14 between 4 and 5 (02 W4). `room` is the length of the report.
fn file_answer<'a>(file: &'a [u8], book: &'a [u8], today: &[u8], room: usize) -> Result<Accepted<'a>, Refusal> {
    refuse_if(file.is_empty(), FileReason::Empty, 0)?;
    let (records, part_of_a_record) = file.as_chunks::<RECORD>();
    refuse_if(!part_of_a_record.is_empty(), FileReason::Length, 0)?;
    refuse_if(records.len() > MOST_RECORDS, FileReason::TooManyRecords, 0)?;
    let book = Book::read(book).ok_or(refusal(FileReason::Book, 0))?;
    let today = match today {
        [] => None,
        lent => Some(Today::read(lent).ok_or(refusal(FileReason::NoToday, 0))?),
    };
    nesting(records).map_err(|record| refusal(FileReason::Nesting, record))?;

    let batches = batches(records);
    refuse_if(room < ROW * (1 + batches.len()), FileReason::Report, 0)?;
    if let Some(index) = records.iter().position(has_low_byte) {
        return Err(refusal(FileReason::LowByte, index + 1));
    }

    let input_system = layout::of(&records[0], 2);
    let unknown = is_blank(input_system) || find(&book.input_systems, input_system).is_none();
    refuse_if(unknown, FileReason::InputSystem, 1)?;
    refuse_if(correct::text(layout::of(&records[0], 3)) != VERSION, FileReason::Version, 1)?;

    let last = records.len();
    let trailer = |field| layout::of(&records[last - 1], field);
    let (record_count, detail_count, total_amount) = (number(trailer(103)), number(trailer(104)), amount(trailer(105)));
    let non_digit = record_count.is_none() || detail_count.is_none() || total_amount.is_none();
    refuse_if(non_digit, FileReason::TrailerNumber, last)?;

    let payments = batches.iter().map(|batch| batch.payments).sum();
    let total = batches.iter().map(|batch| batch.total).sum();
    refuse_if(record_count != Some(last as u64), FileReason::RecordCount, last)?;
    refuse_if(detail_count != Some(payments), FileReason::DetailCount, last)?;
    refuse_if(total_amount != Some(total), FileReason::TotalAmount, last)?;

    Ok(Accepted {
        lent: Lent { book, today },
        batches,
        records: last,
        payments,
        total,
    })
}

/// A batch of a well nested file, with its counts and total, which stand whether or not it is rejected.
struct Batch<'a> {
    /// Number in the file, from 1, of the header.
    first: u64,
    /// From the header to BT.
    records: &'a [Raw],
    payments: u64,
    total: u128,
}

/// The batches of well nested records. 01 File answers: an amount that is not 20 digits, once corrected, counts as zero.
fn batches(records: &[Raw]) -> Vec<Batch<'_>> {
    let mut batches = Vec::new();
    let (mut start, mut payments, mut total) = (0, 0, 0);
    for (index, record) in records.iter().enumerate() {
        match kind(record) {
            Some(Kind::BatchHeader) => (start, payments, total) = (index, 0, 0),
            Some(Kind::Detail) => {
                payments += 1;
                total += amount(layout::of(record, 24)).unwrap_or(0);
            }
            Some(Kind::BatchTrailer) => {
                batches.push(Batch {
                    first: start as u64 + 1,
                    records: &records[start..=index],
                    payments,
                    total,
                });
            }
            _ => {}
        }
    }
    batches
}

// ---------------------------------------------------------------- 01 Report

/// Eight numbers of eight bytes.
const ROW: usize = 64;

impl Accepted<'_> {
    fn write(&self, report: &mut [u8]) {
        let mut rows = report.chunks_exact_mut(ROW);
        let mut write = |numbers| {
            if let Some(row) = rows.next() {
                write_row(row, numbers);
            }
        };

        let (high, low) = split(self.total);
        write([0, 0, self.records as u64, self.payments, high, low, self.batches.len() as u64, 0]);
        let mut schedule_numbers = HashSet::with_capacity(self.batches.len());
        for batch in &self.batches {
            let (high, low) = split(batch.total);
            let (reason, record, field) = match batch_rules(batch, &self.lent, &mut schedule_numbers) {
                Ok(()) => (0, 0, 0),
                Err(Fault { reason, record, field }) => (reason as u64, record, field),
            };
            let records = batch.records.len() as u64;
            write([batch.first, records, batch.payments, high, low, reason, record, field]);
        }
    }
}

fn write_row(row: &mut [u8], numbers: [u64; 8]) {
    for (bytes, number) in row.chunks_exact_mut(8).zip(numbers) {
        bytes.copy_from_slice(&number.to_le_bytes());
    }
}

/// A total div and mod 10^10. 65,535 amounts below 10^20 keep the first below 2^64.
fn split(total: u128) -> (u64, u64) {
    ((total / TEN_TO_10) as u64, (total % TEN_TO_10) as u64)
}

// ---------------------------------------------------------------- 01 Batch reasons

/// Numbered as in the table.
#[derive(Clone, Copy)]
enum Reason {
    Blank = 1,
    Shape = 2,
    Unlisted = 3,
    NotInBook = 4,
    NoDate = 5,
    Repeats = 6,
    Unmatched = 7,
    Range = 8,
    TasSum = 9,
    ProcurementSum = 10,
    WithoutTas = 11,
    TooManyKinds = 12,
    Count = 13,
    Amount = 14,
    /// 02 W4: too early or too late for today, or outside the accounting month.
    Untimely = 15,
}

struct Fault {
    reason: Reason,
    record: u64,
    field: u64,
}

/// A check ends at the first fault.
type Check<T = ()> = Result<T, Fault>;

/// A record with its number in the file, and the checks that the sections below are worded in.
#[derive(Clone, Copy)]
struct Record<'a> {
    raw: &'a Raw,
    number: u64,
}

impl<'a> Record<'a> {
    fn field(self, field: u64) -> &'a [u8] {
        layout::of(self.raw, field)
    }

    fn filled(self, field: u64) -> bool {
        !is_blank(self.field(field))
    }

    /// 01 Others: 36 is also unfilled when all zeros, and so is one zero, which is padded with zeros (02 W3).
    fn filled_number(self, field: u64) -> bool {
        self.filled(field) && number(self.field(field)) != Some(0)
    }

    /// 01 Others: 48 is also unfilled when all zeros. It is text: a zero and a blank are not.
    fn filled_not_zeros(self, field: u64) -> bool {
        self.filled(field) && !is_zeros(self.field(field))
    }

    fn fault(self, field: u64, reason: Reason) -> Fault {
        Fault {
            reason,
            record: self.number,
            field,
        }
    }

    fn must(self, holds: bool, field: u64, reason: Reason) -> Check {
        if holds {
            Ok(())
        } else {
            Err(self.fault(field, reason))
        }
    }

    fn required(self, field: u64) -> Check {
        self.must(self.filled(field), field, Reason::Blank)
    }

    fn digits(self, field: u64) -> Check<u64> {
        self.required(field)?;
        number(self.field(field)).ok_or(self.fault(field, Reason::Shape))
    }

    fn amount(self, field: u64) -> Check<u128> {
        self.required(field)?;
        amount(self.field(field)).ok_or(self.fault(field, Reason::Shape))
    }

    fn listed<const N: usize>(self, field: u64, values: &[[u8; N]]) -> Check {
        self.required(field)?;
        let text = correct::text(self.field(field));
        self.must(values.contains(&text), field, Reason::Unlisted)
    }

    /// The entry of the book's section.
    fn in_book<const ENTRY: usize>(self, field: u64, section: &[[u8; ENTRY]]) -> Check<&[u8; ENTRY]> {
        self.required(field)?;
        find(section, self.field(field)).ok_or(self.fault(field, Reason::NotInBook))
    }

    fn date(self, field: u64, read: fn(&[u8]) -> Option<Day>) -> Check<Day> {
        self.required(field)?;
        read(self.field(field)).ok_or(self.fault(field, Reason::NoDate))
    }

    /// 01 Routing number. Nine zeros pass by their prefix.
    fn routing_number(self, field: u64) -> Check {
        let prefix = self.digits(field)? / 10_000_000;
        self.must(matches!(prefix, 0..=12 | 21..=32 | 61..=72 | 80), field, Reason::Unlisted)
    }
}

/// CCYY-MM-DD (004 8, 56).
fn hyphened_date(field: &[u8]) -> Option<Day> {
    let is_hyphened = field[4] == HYPHEN && field[7] == HYPHEN;
    Day::read(&field[..4], &field[5..7], &field[8..]).filter(|_| is_hyphened)
}

/// YYYYMMDD (004 17, 59; 02 W4).
fn plain_date(field: &[u8]) -> Option<Day> {
    Day::read(&field[..4], &field[4..6], &field[6..])
}

/// 004 10.
const VOUCHER_FORMS: [[u8; 4]; 2] = [text("5515"), text("215")];
/// 004 16.
const REGULAR_CHECK: [[u8; 1]; 1] = [text("0")];
/// 004 25.
const VOIDED: [u8; 1] = text("1");
const VOIDED_OR_NOT: [[u8; 1]; 2] = [text("0"), VOIDED];
/// 004 44.
#[rustfmt::skip]
const BUSINESS_FUNCTIONS: [[u8; 3]; 7] = [text("CTR"), text("BTR"), text("CTP"), text("CKS"), text("DEP"), text("DRW"), text("DRC")];
/// 004 48.
const ACH_TRANSACTIONS: [[u8; 2]; 4] = [text("22"), text("32"), text("42"), text("52")];
/// 004 51.
const PAYER_MECHANISMS: [[u8; 20]; 3] = [text("Electronic"), text("Check"), text("Western Union")];
/// 004 62.
const ENTRY_CLASSES: [[u8; 3]; 4] = [text("CCD"), text("PPD"), text("IAT"), text("CTX")];

/// 01 Batch reasons 12, as 02 W1 has it.
const MOST_KINDS_IN_BATCH: usize = 1_000;
/// 02 W1: positions 23 to 54 of a DT, fields 78 to 86, are its kind of TAS/BETC.
const TAS_KIND: Range<usize> = place(78).start..place(86).end;

/// 02 W3: each of the fields is corrected within itself.
fn tas_kind(tas: &Raw) -> [u8; TAS_KIND.end - TAS_KIND.start] {
    let mut kind = [BLANK; TAS_KIND.end - TAS_KIND.start];
    kind.copy_from_slice(&tas[TAS_KIND]);
    for field in 78..=86 {
        move_left(&mut kind[place(field).start - TAS_KIND.start..place(field).end - TAS_KIND.start]);
    }
    kind
}

/// 01 Batch reasons, Order: header, each payment, 12, BT, field 9's sum. `schedule_numbers` holds those of all earlier batches.
fn batch_rules<'a>(batch: &Batch<'a>, lent: &Lent, schedule_numbers: &mut HashSet<&'a [u8]>) -> Check {
    let [header, payments @ .., trailer] = batch.records else {
        return Ok(()); // no batch of a well nested file
    };
    let header = Record {
        raw: header,
        number: batch.first,
    };
    let trailer = Record {
        raw: trailer,
        number: batch.first + batch.records.len() as u64 - 1,
    };

    let batch_reports = header_rules(header, lent, schedule_numbers)?;

    let mut payment_ids = HashSet::with_capacity(batch.payments as usize);
    let mut number = header.number + 1;
    let mut tas = 0;
    for (earlier, records) in payments.chunk_by(|_, next| kind(next) != Some(Kind::Detail)).enumerate() {
        let within = InBatch {
            header,
            batch_reports,
            earlier: earlier as u64,
        };
        tas += payment_rules(records, number, within, lent, &mut payment_ids)?;
        number += records.len() as u64;
    }
    let few_kinds = tas <= MOST_KINDS_IN_BATCH || !too_many_kinds(payments);
    header.must(few_kinds, 76, Reason::TooManyKinds)?;

    trailer_rules(trailer, batch)?;
    let sum_matches = letter(header.raw) == CHECK || amount(header.field(9)) == Some(batch.total);
    header.must(sum_matches, 9, Reason::Amount)
}

/// 02 W1: whether the DT among the records are of more kinds than a batch may have.
fn too_many_kinds(records: &[Raw]) -> bool {
    let mut kinds = HashSet::with_capacity(MOST_KINDS_IN_BATCH + 1);
    let tas = records.iter().filter(|raw| kind(raw) == Some(Kind::TasBetc));
    tas.map(tas_kind)
        .any(|kind| kinds.insert(kind) && kinds.len() > MOST_KINDS_IN_BATCH)
}

/// 01 Header. Gives whether field 14 is a CARS Reporter (never in BC, where field 29 decides).
fn header_rules<'a>(header: Record<'a>, lent: &Lent, schedule_numbers: &mut HashSet<&'a [u8]>) -> Check<bool> {
    header.required(6)?;
    header.must(schedule_numbers.insert(value(header.field(6))), 6, Reason::Repeats)?;
    match letter(header.raw) {
        CHECK => check_header_rules(header, lent.today.as_ref()).map(|()| false),
        _ => voucher_header_rules(header, &lent.book),
    }
}

/// 01 Header: BN, BW, BI, BA. 02 W3: field 7 is moved right and padded with zeros, so that only a blank inside is one.
fn voucher_header_rules(header: Record, book: &Book) -> Check<bool> {
    header.required(7)?;
    header.must(!value(header.field(7)).contains(&BLANK), 7, Reason::Shape)?;
    header.date(8, hyphened_date)?;
    header.amount(9)?;
    header.listed(10, &VOUCHER_FORMS)?;
    match letter(header.raw) {
        WIRE => header.routing_number(12)?,
        NACHA => header.routing_number(13)?,
        _ => {}
    }
    header.in_book(14, &book.locations).map(flag)
}

/// 01 Header: BC. 02 W4: its rules are the last of their fields.
fn check_header_rules(header: Record, today: Option<&Today>) -> Check {
    let joined: [u8; 14] = joined(header.field(18), header.field(19));
    header.must(correct::text(header.field(6)) == joined, 6, Reason::Unmatched)?;
    header.digits(15)?;
    header.listed(16, &REGULAR_CHECK)?;
    let created = header.date(17, plain_date)?;
    let is_timely = today.is_none_or(|today| today.admits_creation(created));
    header.must(is_timely, 17, Reason::Untimely)?;
    let symbol = header.digits(18)?;
    header.must((1000..=9998).contains(&symbol), 18, Reason::Range)?;
    header.digits(19)?;
    let first = accounting_month(header)?;
    let is_timely = today.is_none_or(|today| today.admits_month(first));
    header.must(is_timely, 20, Reason::Untimely)
}

/// The first day of the month in 004 20, MMYY. 02 W4: years 00 to 99 mean 2000 to 2099.
fn accounting_month(header: Record) -> Check<Day> {
    let digits = header.digits(20)?;
    let (year, month) = (2000 + digits % 100, digits / 100);
    header.must((1..=12).contains(&month), 20, Reason::NoDate)?;
    Ok(Day { year, month, day: 1 })
}

/// A check symbol, then a serial number, each corrected, then blanks over a width of N bytes (004 6, 23). 02 W3 moves the fields, not what
/// is joined from them: it begins with blanks where the symbol is blank.
fn joined<const N: usize>(symbol: &[u8], serial: &[u8]) -> [u8; N] {
    let mut joined = [BLANK; N];
    joined[..4].copy_from_slice(&correct::number::<4>(symbol));
    joined[4..12].copy_from_slice(&correct::number::<8>(serial));
    joined
}

/// What a payment's rules take from its batch.
#[derive(Clone, Copy)]
struct InBatch<'a> {
    header: Record<'a>,
    /// Whether field 14 is a CARS Reporter.
    batch_reports: bool,
    /// The number of earlier payments in the batch.
    earlier: u64,
}

/// 01 Batch reasons, Order: the detail, its other records in file order, then 9, 10 and 11. Gives the number of DT.
fn payment_rules<'a>(records: &'a [Raw], number: u64, within: InBatch, lent: &Lent, payment_ids: &mut HashSet<&'a [u8]>) -> Check<usize> {
    let [detail, others @ ..] = records else {
        return Ok(0); // no payment of a well nested file
    };
    let detail = Record { raw: detail, number };
    let (paid, reports) = detail_rules(detail, within, lent, payment_ids)?;

    let count = |wanted| others.iter().filter(|raw| kind(raw) == Some(wanted)).count();
    let (tas, procurements) = (count(Kind::TasBetc), count(Kind::Procurement));
    let (mut tas_sum, mut procurement_sum) = (None, None);
    for (raw, number) in others.iter().zip(number + 1..) {
        let record = Record { raw, number };
        match kind(raw) {
            Some(Kind::Party) => party_rules(record, letter(detail.raw))?,
            Some(Kind::TasBetc) => {
                let (amount, credit) = tas_rules(record, reports, &lent.book)?;
                let signed = if credit && tas > 1 { -amount } else { amount };
                tas_sum = Some(tas_sum.unwrap_or(0) + signed);
            }
            Some(Kind::Procurement) => {
                if let Some(amount) = procurement_rules(record, procurements == 1)? {
                    procurement_sum = Some(procurement_sum.unwrap_or(0) + amount);
                }
            }
            _ => {}
        }
    }

    detail.must(tas_sum.is_none_or(|sum| sum == paid as i128), 87, Reason::TasSum)?;
    detail.must(procurement_sum.is_none_or(|sum| sum == paid), 96, Reason::ProcurementSum)?;
    detail.must(!reports || tas > 0, 76, Reason::WithoutTas)?;
    Ok(tas)
}

/// 01 Detail, with fields ascending over all letters. Gives the amount and whether the payment's location is a CARS Reporter.
fn detail_rules<'a>(detail: Record<'a>, within: InBatch, lent: &Lent, payment_ids: &mut HashSet<&'a [u8]>) -> Check<(u128, bool)> {
    let (letter, Lent { book, today }) = (letter(detail.raw), lent);

    detail.required(23)?;
    detail.must(payment_ids.insert(value(detail.field(23))), 23, Reason::Repeats)?;
    if letter == CHECK {
        let joined: [u8; 20] = joined(within.header.field(18), detail.field(58));
        detail.must(correct::text(detail.field(23)) == joined, 23, Reason::Unmatched)?;
    }
    let paid = detail.amount(24)?;
    detail.must(amount_in_range(paid, letter, detail.field(25)), 24, Reason::Range)?;
    if letter == CHECK {
        detail.listed(25, &VOIDED_OR_NOT)?;
    }
    detail.required(26)?;
    detail.in_book(28, &book.payment_types)?;
    let reports = match letter {
        CHECK => flag(detail.in_book(29, &book.locations)?),
        _ => within.batch_reports,
    };
    if detail.filled(35) {
        detail.in_book(35, &book.states)?;
    }
    if detail.filled_number(36) {
        detail.digits(36)?;
    }
    if detail.filled(38) {
        detail.in_book(38, &book.countries)?;
    }
    match letter {
        WIRE => {
            detail.routing_number(42)?;
            detail.listed(44, &BUSINESS_FUNCTIONS)?;
        }
        NACHA => {
            detail.routing_number(43)?;
            if detail.filled_not_zeros(48) {
                detail.listed(48, &ACH_TRANSACTIONS)?;
            }
        }
        INTERNATIONAL if detail.filled(51) => detail.listed(51, &PAYER_MECHANISMS)?,
        _ => {}
    }
    if detail.filled(52) {
        detail.in_book(52, &book.currencies)?;
    }
    match letter {
        ADJUSTMENT => {
            detail.required(54)?;
            detail.required(55)?;
            detail.date(56, hyphened_date)?;
        }
        CHECK => {
            let serial = detail.digits(58)?;
            let first = within.header.digits(19)?;
            detail.must(serial == first + within.earlier, 58, Reason::Unmatched)?;
            let issued = detail.date(59, plain_date)?;
            if let Some(today) = today {
                let first = accounting_month(within.header)?;
                detail.must(today.admits_issue(issued, first), 59, Reason::Untimely)?;
            }
        }
        NACHA => detail.listed(62, &ENTRY_CLASSES)?,
        _ => {}
    }
    Ok((paid, reports))
}

/// 01 Detail, field 24: above zero, but for checks at most 9,999,999,999 cents, and zero if voided.
fn amount_in_range(amount: u128, letter: u8, voided: &[u8]) -> bool {
    match letter {
        CHECK => amount <= 9_999_999_999 && (voided != VOIDED || amount == 0),
        _ => amount > 0,
    }
}

/// 01 Others: DX.
fn party_rules(party: Record, letter: u8) -> Check {
    match letter {
        ADJUSTMENT => Ok(()),
        _ => party.required(66),
    }
}

/// 01 Others: DT. Gives the amount and whether the BETC is a credit; a blank one is none (01 Sums).
fn tas_rules(tas: Record, reports: bool, book: &Book) -> Check<(i128, bool)> {
    if reports {
        for field in [80, 84, 85, 86] {
            tas.required(field)?;
        }
    }
    let credit = tas.filled(86) && flag(tas.in_book(86, &book.betcs)?);
    Ok((tas.amount(87)? as i128, credit))
}

/// 01 Others: DP. None where a payment's only DP leaves the amount blank.
fn procurement_rules(procurement: Record, only: bool) -> Check<Option<u128>> {
    if only && !procurement.filled(96) {
        return Ok(None);
    }
    procurement.amount(96).map(Some)
}

/// 01 Others: BT.
fn trailer_rules(trailer: Record, batch: &Batch) -> Check {
    let count = trailer.digits(99)?;
    trailer.must(count == batch.payments, 99, Reason::Count)?;
    let total = trailer.amount(100)?;
    trailer.must(total == batch.total, 100, Reason::Amount)
}

#[cfg(test)]
mod tests {
    use super::*;

    fn put(record: &mut Raw, field: u64, value: &str) {
        let bytes = &mut record[place(field)];
        bytes.fill(BLANK);
        bytes.iter_mut().zip(value.bytes()).for_each(|(byte, ascii)| *byte = ebcdic(ascii));
    }

    fn bytes(ascii: &str) -> Vec<u8> {
        ascii.bytes().map(ebcdic).collect()
    }

    fn record(code: &str, fields: &[(u64, &str)]) -> Raw {
        let mut record = [BLANK; RECORD];
        put(&mut record, 1, code);
        for &(field, value) in fields {
            put(&mut record, field, value);
        }
        record
    }

    fn cents(cents: u128) -> String {
        format!("{cents:020}")
    }

    const PLAIN: &str = "11111111";
    const REPORTER: &str = "22222222";

    fn section_bytes(kind: u16, entries: &[(&str, usize, &[u8])]) -> Vec<u8> {
        let mut body = kind.to_le_bytes().to_vec();
        for &(code, width, flag) in entries {
            body.extend(format!("{code:<width$}").bytes().map(ebcdic));
            body.extend(flag);
        }
        [&(body.len() as u32).to_le_bytes()[..], &body].concat()
    }

    fn sections() -> Vec<Vec<u8>> {
        vec![
            section_bytes(1, &[("S", 40, &[]), ("SYSTEM", 40, &[])]),
            section_bytes(2, &[(PLAIN, 8, &[0]), (REPORTER, 8, &[1]), ("3", 8, &[0])]),
            section_bytes(3, &[("CREDIT", 8, &[1]), ("DEBIT", 8, &[0]), ("DEBIT  2", 8, &[0]), ("X", 8, &[0])]),
            section_bytes(4, &[("V", 25, &[]), ("Vendor", 25, &[])]),
            section_bytes(5, &[("NY", 2, &[]), ("Q", 2, &[])]),
            section_bytes(6, &[("Q", 2, &[]), ("US", 2, &[])]),
            section_bytes(7, &[("EUR", 3, &[]), ("Q", 3, &[]), ("USD", 3, &[])]),
        ]
    }

    fn book() -> Vec<u8> {
        sections().concat()
    }

    fn header(letter: char, schedule: &str, total: u128) -> Raw {
        let code = format!("B{letter}");
        if letter == 'C' {
            let schedule = "100000000007";
            #[rustfmt::skip]
            let fields = [(6, schedule), (15, "1000"), (16, "0"), (17, "20131126"), (18, "1000"), (19, "00000007"), (20, "1113")];
            return record(&code, &fields);
        }
        #[rustfmt::skip]
        let mut header = record(&code, &[(6, schedule), (7, "000001"), (8, "2013-11-26"), (9, &cents(total)), (10, "215"), (14, PLAIN)]);
        match letter {
            'W' => put(&mut header, 12, "121000000"),
            'N' => put(&mut header, 13, "800000000"),
            _ => {}
        }
        header
    }

    fn id(letter: char, nth: usize) -> String {
        match letter {
            'C' => format!("1000{:08}", 7 + nth),
            _ => format!("ID{nth}"),
        }
    }

    fn detail(letter: char, nth: usize, paid: u128) -> Raw {
        let fields: &[(u64, &str)] = match letter {
            'N' => &[(43, "000000000"), (62, "PPD")],
            'W' => &[(42, "320000000"), (44, "CTR")],
            'A' => &[(54, "OLD"), (55, "OLD"), (56, "2013-11-26")],
            'C' => &[(25, "0"), (29, PLAIN), (58, &id(letter, nth)[4..]), (59, "20131126")],
            _ => &[],
        };
        let mut detail = record(&format!("D{letter}"), fields);
        put(&mut detail, 23, &id(letter, nth));
        put(&mut detail, 24, &cents(paid));
        put(&mut detail, 26, "NAME");
        put(&mut detail, 28, "Vendor");
        detail
    }

    fn party(id: &str) -> Raw {
        record("DX", &[(65, id), (66, "NAME")])
    }

    fn tas(id: &str, betc: &str, amount: u128) -> Raw {
        record("DT", &[(77, id), (86, betc), (87, &cents(amount))])
    }

    fn procurement(id: &str, amount: &str) -> Raw {
        record("DP", &[(91, id), (96, amount)])
    }

    fn batch_trailer(count: usize, total: u128) -> Raw {
        record("BT", &[(99, &format!("{count:08}")), (100, &cents(total))])
    }

    /// A batch of payments, each an amount and what follows its DX.
    fn batch(letter: char, schedule: &str, payments: &[(u128, Vec<Raw>)]) -> Vec<Raw> {
        let total = payments.iter().map(|payment| payment.0).sum();
        let mut records = vec![header(letter, schedule, total)];
        for (nth, (paid, others)) in payments.iter().enumerate() {
            records.extend([detail(letter, nth, *paid), party(&id(letter, nth))]);
            records.extend(others);
        }
        records.push(batch_trailer(payments.len(), total));
        records
    }

    /// FH, the batches and FT. The totals are read from the batches, so that a change in a detail is carried.
    fn file(batches: &[Vec<Raw>]) -> Vec<Raw> {
        let mut records = vec![record("FH", &[(2, "SYSTEM"), (3, "201")])];
        records.extend(batches.concat());
        let details = || records.iter().filter(|record| kind(record) == Some(Kind::Detail));
        let total = details().map(|detail| amount(layout::of(detail, 24)).unwrap_or(0)).sum();
        let counts = [format!("{:018}", records.len() + 1), format!("{:018}", details().count())];
        let trailer = record("FT", &[(103, &counts[0]), (104, &counts[1]), (105, &cents(total))]);
        records.push(trailer);
        records
    }

    /// FH, batch header, detail, DX, BT, FT.
    fn smallest(letter: char) -> Vec<Raw> {
        file(&[batch(letter, "S1", &[(12345, vec![])])])
    }

    const ROOM: usize = 4096;

    fn answer(records: &[Raw]) -> u64 {
        judge(records.as_flattened(), &book(), &[], &mut [0; ROOM])
    }

    fn rows(records: &[Raw]) -> Vec<[u64; 8]> {
        rows_on("", records)
    }

    /// With this day lent.
    fn rows_on(today: &str, records: &[Raw]) -> Vec<[u64; 8]> {
        let mut report = [0xEE; ROOM];
        assert_eq!(judge(records.as_flattened(), &book(), &bytes(today), &mut report), 0);
        let number = |bytes: &[u8; 8]| u64::from_le_bytes(*bytes);
        let row = |row: &[u8; ROW]| std::array::from_fn(|i| number(&row.as_chunks().0[i]));
        let all: Vec<[u64; 8]> = report.as_chunks().0.iter().map(row).collect();
        let (written, rest) = all.split_at(1 + all[0][6] as usize);
        assert!(rest.as_flattened().iter().all(|&number| number == 0xEEEE_EEEE_EEEE_EEEE));
        written.to_vec()
    }

    /// Reason, record and field of the first batch.
    fn fault(batch: Vec<Raw>) -> [u64; 3] {
        rows(&file(&[batch]))[1][5..].try_into().unwrap()
    }

    const SOUND: [u64; 3] = [0; 3];

    /// Record in the batch, field and value.
    type Change<'a> = (usize, u64, &'a str);

    /// The smallest batch of a letter, with changes.
    fn changed(letter: char, changes: &[Change]) -> [u64; 3] {
        let mut records = batch(letter, "S1", &[(12345, vec![])]);
        for &(record, field, value) in changes {
            put(&mut records[record], field, value);
        }
        fault(records)
    }

    /// 01 Worked examples: the program's output.
    #[test]
    fn rows_of_the_smallest_file() {
        assert_eq!(rows(&smallest('N')), [[0, 0, 6, 1, 0, 12345, 1, 0], [2, 4, 1, 0, 12345, 0, 0, 0]]);
        for letter in "NCWIA".chars() {
            assert_eq!(rows(&smallest(letter))[1], [2, 4, 1, 0, 12345, 0, 0, 0], "{letter}");
        }
        let mut records = smallest('N');
        put(&mut records[3], 1, "BT");
        assert_eq!(answer(&records), 500_004);
    }

    fn nested(codes: &str) -> Result<(), usize> {
        let records: Vec<Raw> = codes.split(' ').map(|code| record(code, &[])).collect();
        nesting(&records)
    }

    /// 01 Worked examples and Nesting; one ID throughout.
    #[test]
    fn nesting_of_codes() {
        #[rustfmt::skip]
        let cases = [
            ("FH BN DN DX BT FT", Ok(())),
            ("FH BN DN BT", Err(4)),
            ("FH BN DW", Err(3)),
            ("FH BN DN DX", Err(5)),
            ("FH FT", Err(2)),
            ("FH BN DN DX BT BC", Err(6)),
            ("FH BC DC DX BT BN", Err(6)),
            ("FH BC DC DX BT BC DC DX DX DT DP BT FT", Ok(())),
            ("FH BN DN DX BT BW DW DX BT BI DI DX BT BA DA DX BT FT", Ok(())),
            ("FH BN DN DX DN DX DT DN DX DP DN DX DT DP BT FT", Ok(())),
            ("FH BN DN DX BT FT FT", Err(7)),
            ("FH BN DN DX BT", Err(6)),
            ("FH BN DN DX FT", Err(5)),
            ("FH BN BT", Err(3)),
            ("FH BN DX", Err(3)),
            ("FH BN DN DT", Err(4)),
            ("FH BN DN DP", Err(4)),
            ("FH BN DN DN", Err(4)),
            ("FH BN DN DX DT DX", Err(6)),
            ("FH BN DN DX DP DT", Err(6)),
            ("FH BN DN DX DP DX", Err(6)),
            ("FH FH", Err(2)),
            ("FH", Err(2)),
            ("BN", Err(1)),
            ("FH Bn", Err(2)),
        ];
        for (codes, expected) in cases {
            assert_eq!(nested(codes), expected, "{codes}");
        }
    }

    #[test]
    fn nesting_of_hundreds() {
        let many = |code: &str, n| format!("{code} ").repeat(n);
        assert_eq!(nested(&format!("FH BN DN DX {}{}BT FT", many("DT", 100), many("DP", 100))), Ok(()));
        assert_eq!(nested(&format!("FH BN DN DX {}BT FT", many("DT", 101))), Err(105));
        assert_eq!(nested(&format!("FH BN DN DX {}BT FT", many("DP", 101))), Err(105));
        assert_eq!(nested(&format!("FH BN DN {}BT FT", many("DX", 300))), Ok(()));
        assert_eq!(
            nested(&format!("FH BN {}BT FT", format!("DN DX {}", many("DT", 100)).repeat(3))),
            Ok(())
        );
    }

    #[test]
    fn nesting_of_payment_ids() {
        for code in ["DX", "DT", "DP"] {
            let mut records = vec![record("FH", &[]), record("BN", &[]), detail('N', 0, 1), party("ID0")];
            records.push(record(code, &[(65, "ID1")]));
            assert_eq!(nesting(&records), Err(5), "{code}");
        }
    }

    /// 01 Bytes: the stretches are all but 004's fillers.
    #[test]
    fn stretches_leave_out_the_fillers_alone() {
        for field in layout::FIELDS {
            let looked_at = stretches(field.kind)
                .into_iter()
                .any(|stretch| stretch.contains(&place(field.number).start));
            assert_eq!(looked_at, !layout::FILLERS.contains(&field.number), "{}", field.number);
        }
    }

    #[test]
    fn low_bytes() {
        for (index, letter) in (0..6).flat_map(|index| "NC".chars().map(move |letter| (index, letter))) {
            let sound = smallest(letter);
            let kind = kind(&sound[index]).unwrap();
            for at in 22..RECORD {
                let mut records = sound.clone();
                records[index][at] = 0x3F;
                let field = layout::FIELDS
                    .iter()
                    .find(|field| field.kind == kind && place(field.number).contains(&at))
                    .unwrap();
                let refused = !layout::FILLERS.contains(&field.number);
                assert_eq!(answer(&records), if refused { 700_001 + index as u64 } else { 0 }, "{index} {at}");
            }
        }
    }

    /// 02 W2: the file by the inverse table; each of its bytes has a character.
    fn in_ascii(records: &[Raw]) -> Vec<Raw> {
        let ascii = |record: &Raw| record.map(|byte| ascii::to_ascii(byte).unwrap());
        records.iter().map(ascii).collect()
    }

    #[test]
    fn ascii_files() {
        for letter in "NCWIA".chars() {
            let records = smallest(letter);
            assert_eq!(rows(&in_ascii(&records)), rows(&records), "{letter}");
        }
        let mut records = smallest('N');
        put(&mut records[1], 9, "");
        assert_eq!(rows(&in_ascii(&records))[1][5..], [1, 2, 9]);
        put(&mut records[3], 1, "BT");
        assert_eq!(answer(&in_ascii(&records)), 500_004);

        let book_in_ascii: Vec<u8> = book().iter().map(|&byte| ascii::to_ascii(byte).unwrap_or(byte)).collect();
        let judge_bytes = |bytes: &[u8], book: &[u8], room| judge(bytes, book, &[], &mut vec![0; room]);
        let sound = in_ascii(&smallest('N'));
        let bytes = sound.as_flattened();
        assert_eq!(judge_bytes(bytes, &book_in_ascii, ROOM), 800_001);
        assert_eq!(judge_bytes(&bytes[..bytes.len() - 1], &book(), ROOM), 200_000);
        assert_eq!(judge_bytes(bytes, &book()[1..], ROOM), 400_000);
        assert_eq!(judge_bytes(bytes, &book(), 127), 600_000);
        assert_eq!(judge_bytes(&[], &book(), ROOM), 100_000);
        assert_eq!([&b"F"[..], b"FH"].map(|bytes| judge_bytes(bytes, &book(), ROOM)), [200_000; 2]);
    }

    /// 02 W2: the first two bytes decide for the whole file.
    #[test]
    fn ascii_by_the_first_two_bytes() {
        let sound = smallest('N');
        let begun = |records: &[Raw], start: [u8; 2]| {
            let mut records = records.to_vec();
            records[0][..2].copy_from_slice(&start);
            answer(&records)
        };
        assert_eq!(begun(&sound, [0x46, 0x48]), 500_002);
        assert_eq!(begun(&in_ascii(&sound), [0xC6, 0xC8]), 500_002);
        for start in [[0x66, 0x68], [0x48, 0x46], [0x46, 0xC8], [0xC6, 0x48]] {
            assert_eq!(begun(&sound, start), 500_001);
            assert_eq!(begun(&in_ascii(&sound), start), 500_001);
        }
    }

    /// 02 W2: unprintable bytes are low ones of the translated file, and fillers do not matter.
    #[test]
    fn ascii_low_bytes() {
        for (index, letter) in (0..6).flat_map(|index| "NC".chars().map(move |letter| (index, letter))) {
            let (kind, sound) = (kind(&smallest(letter)[index]).unwrap(), in_ascii(&smallest(letter)));
            for (at, byte) in (22..RECORD).zip([0x00, 0x09, 0x1F, 0x7F, 0x80, 0xC1, 0xFF].into_iter().cycle()) {
                let mut records = sound.clone();
                records[index][at] = byte;
                let looked_at = stretches(kind).into_iter().any(|stretch| stretch.contains(&at));
                assert_eq!(answer(&records), if looked_at { 700_001 + index as u64 } else { 0 }, "{index} {at}");
            }
        }
    }

    /// 02 W2: IDs that differ in unprintable bytes alone are equal once translated.
    #[test]
    fn ascii_payment_ids() {
        let with = |of_detail, of_party, room| {
            let mut records = in_ascii(&smallest('N'));
            records[2][21] = of_detail;
            records[3][21] = of_party;
            judge(records.as_flattened(), &book(), &[], &mut vec![0; room])
        };
        assert_eq!(with(b'?', b'?', 128), 0);
        assert_eq!(with(0x09, 0xFF, 128), 700_003);
        assert_eq!(with(0x09, 0xFF, 127), 600_000);
        assert_eq!(with(0x7F, 0x80, 128), 700_003);
        assert_eq!(with(0x09, b'?', 128), 500_004);
        assert_eq!(with(b'o', 0x3F, 128), 500_004);
        assert_eq!(with(b'a', b'A', 128), 500_004);
    }

    /// 01 File answers: each, and the order.
    #[test]
    fn file_answers() {
        let judge_bytes = |bytes: &[u8], book: &[u8], room| {
            let mut report = vec![0xEE; room];
            let answer = judge(bytes, book, &[], &mut report);
            assert!(answer == 0 || report.iter().all(|&byte| byte == 0xEE));
            answer
        };
        assert_eq!(judge_bytes(&[], &[], 0), 100_000);
        assert_eq!(judge_bytes(&[0; 849], &[], 0), 200_000);
        assert_eq!(judge_bytes(&[0; 850], &[], 0), 400_000);
        assert_eq!(judge_bytes(&[0; 850], &book(), 0), 500_001);
        assert_eq!(judge_bytes(&[0; 851], &[], 0), 200_000);
        assert_eq!(judge_bytes(&vec![0; 65_535 * RECORD], &book(), 0), 500_001);
        assert_eq!(judge_bytes(&vec![0; 65_536 * RECORD], &[], 0), 300_000);
        assert_eq!(judge_bytes(&vec![0; 65_536 * RECORD + 1], &[], 0), 200_000);

        // Broken one by one from the table's end: each reason comes before those already there.
        let mut records = smallest('N');
        assert_eq!(judge_bytes(records.as_flattened(), &book(), 128), 0);
        for (record, field, value, expected) in [
            (5, 105, "00000000000000012346", 1_300_006),
            (5, 104, "000000000000000002", 1_200_006),
            (5, 103, "000000000000000005", 1_100_006),
            (5, 105, "000000000000001 2345", 1_000_006),
            (5, 104, "", 1_000_006),
            (0, 3, "200", 900_001),
            (0, 2, "SYSTEN", 800_001),
            (0, 2, "", 800_001),
        ] {
            put(&mut records[record], field, value);
            assert_eq!(judge_bytes(records.as_flattened(), &book(), 128), expected, "{field}");
        }
        records[4][2] = 0x3F;
        assert_eq!(judge_bytes(records.as_flattened(), &book(), 128), 700_005);
        assert_eq!(judge_bytes(records.as_flattened(), &book(), 127), 600_000);
        put(&mut records[5], 1, "BT");
        assert_eq!(judge_bytes(records.as_flattened(), &book(), 127), 500_006);
        assert_eq!(judge_bytes(records.as_flattened(), &book()[1..], 127), 400_000);
    }

    /// 01 Code book.
    #[test]
    fn code_books() {
        let sound = |sections: &[Vec<u8>]| Book::read(&sections.concat()).is_some();
        let with = |kind: usize, bytes: Vec<u8>| {
            let mut sections = sections();
            sections[kind - 1] = bytes;
            sound(&sections)
        };
        assert!(sound(&sections()));
        assert!(sound(&(1..=7).map(|kind| section_bytes(kind, &[])).collect::<Vec<_>>()));
        assert!(!sound(&[]));
        assert!(!sound(&sections()[..6]));
        assert!(!sound(&[sections(), vec![vec![0]]].concat()));
        assert!(!with(6, section_bytes(5, &[])));
        assert!(!with(6, vec![0, 0, 0, 0]));
        assert!(!with(6, vec![1, 0, 0, 0, 6]));
        assert!(!with(6, vec![3, 0, 0, 0, 6, 0, 0x40]));
        assert!(!with(7, vec![0xFF, 0xFF, 0xFF, 0xFF, 7, 0]));
        assert!(!with(5, section_bytes(5, &[("NY", 2, &[]), ("NY", 2, &[])])));
        assert!(!with(5, section_bytes(5, &[("NY", 2, &[]), ("AL", 2, &[])])));
        assert!(!with(2, section_bytes(2, &[(PLAIN, 8, &[0]), (PLAIN, 8, &[1])])));
        assert!(!with(2, section_bytes(2, &[(PLAIN, 8, &[2])])));
        assert!(with(5, vec![6, 0, 0, 0, 5, 0, 0x00, 0x00, 0x00, 0x01]));

        let of_bytes = |kind: u8, entries: &[u8]| [&(entries.len() as u32 + 2).to_le_bytes()[..], &[kind, 0], entries].concat();
        let ascending_systems: Vec<u8> = (0..419_000u32).flat_map(|n| [n.to_be_bytes(), [0; 4]].concat().repeat(5)).collect();
        let of_length = |length: usize| {
            let states = (length - 42 - ascending_systems.len()) / 2;
            let states: Vec<u8> = (0..states as u16).flat_map(u16::to_be_bytes).collect();
            let mut sections: Vec<_> = (1..=7).map(|kind| section_bytes(kind, &[])).collect();
            sections[0] = of_bytes(1, &ascending_systems);
            sections[4] = of_bytes(5, &states);
            assert_eq!(sections.concat().len(), length);
            sound(&sections)
        };
        assert!(of_length(16_777_216));
        assert!(!of_length(16_777_218));
    }

    /// 01 Worked examples: dates.
    #[test]
    fn dates() {
        for date in ["2024-02-29", "2000-02-29", "0001-01-01", "9999-12-31", "2023-04-30"] {
            assert!(hyphened_date(&bytes(date)).is_some(), "{date}");
            assert!(plain_date(&bytes(&date.replace('-', ""))).is_some(), "{date}");
        }
        #[rustfmt::skip]
        let none = ["1900-02-29", "2023-02-29", "0000-01-01", "2023-00-01", "2023-13-01", "2023-01-00", "2023-01-32", "2023-04-31"];
        for date in none {
            assert!(hyphened_date(&bytes(date)).is_none(), "{date}");
            assert!(plain_date(&bytes(&date.replace('-', ""))).is_none(), "{date}");
        }
        assert!(hyphened_date(&bytes("2023 01-01")).is_none());
        assert!(hyphened_date(&bytes("2023-01-0A")).is_none());
    }

    /// 01 Worked examples: routing prefixes; the readings: blank, then digits, then the prefix.
    #[test]
    fn routing_numbers() {
        for (letter, record, field) in [('W', 0, 12), ('N', 0, 13), ('W', 1, 42), ('N', 1, 43)] {
            let reason = |value: &str| {
                let [reason, at, of] = changed(letter, &[(record, field, value)]);
                assert!(reason == 0 || (at, of) == (record as u64 + 2, field));
                reason
            };
            for prefix in 0..100 {
                let listed = prefix <= 12 || (21..=32).contains(&prefix) || (61..=72).contains(&prefix) || prefix == 80;
                assert_eq!(reason(&format!("{prefix:02}1234567")), if listed { 0 } else { 3 }, "{prefix}");
            }
            assert_eq!(["000000000", "", "99000000A", "1210 0000"].map(reason), [0, 1, 2, 2]);
        }
    }

    /// Changes of one field in the smallest batch: letters, record in the batch, field, value, reason.
    #[rustfmt::skip]
    const SINGLE_FIELDS: &[(&str, usize, u64, &str, u64)] = &[
        ("NWIAC", 0, 6, "", 1),
        ("C", 0, 6, "100000000008", 7),
        ("C", 0, 6, "10000000000700", 7),
        ("NWIA", 0, 7, "", 1),
        ("NWIA", 0, 7, "0000 1", 2),
        ("NWIA", 0, 7, "ABCDEF", 0),
        ("NWIA", 0, 8, "", 1),
        ("NWIA", 0, 8, "20131126", 5),
        ("NWIA", 0, 8, "2013-11-31", 5),
        ("NWIA", 0, 9, "", 1),
        ("NWIA", 0, 9, "12345A", 2),
        ("NWIA", 0, 9, "00000000000000012346", 14),
        ("NWIA", 0, 10, "", 1),
        ("NWIA", 0, 10, "5515", 0),
        ("NWIA", 0, 10, "0215", 3),
        ("NWIA", 0, 14, "", 1),
        ("NWIA", 0, 14, "ABC", 4),
        ("C", 0, 15, "", 1),
        ("C", 0, 15, "10A", 2),
        ("C", 0, 16, "", 1),
        ("C", 0, 16, "1", 3),
        ("C", 0, 16, "A", 3),
        ("C", 0, 17, "", 1),
        ("C", 0, 17, "2013-11-", 5),
        ("C", 0, 20, "", 1),
        ("C", 0, 20, "1 13", 2),
        ("C", 0, 20, "0013", 5),
        ("C", 0, 20, "1313", 5),
        ("C", 0, 20, "1200", 0),
        ("NWIAC", 1, 24, "", 1),
        ("NWIAC", 1, 24, "12345A", 2),
        ("NWIA", 1, 24, "00000000000000000000", 8),
        ("C", 1, 24, "00000000010000000000", 8),
        ("C", 1, 25, "", 1),
        ("C", 1, 25, "2", 3),
        ("NWIA", 1, 25, "2", 0),
        ("NWIAC", 1, 26, "", 1),
        ("NWIAC", 1, 28, "", 1),
        ("NWIAC", 1, 28, "VENDOR", 4),
        ("C", 1, 29, "", 1),
        ("C", 1, 29, "X", 4),
        ("NWIA", 1, 29, "X", 0),
        ("NWIAC", 1, 35, "NY", 0),
        ("NWIAC", 1, 35, "XX", 4),
        ("NWIAC", 1, 36, "00000", 0),
        ("NWIAC", 1, 36, "12345", 0),
        ("NWIAC", 1, 36, "0A00", 2),
        ("NWIAC", 1, 38, "US", 0),
        ("NWIAC", 1, 38, "XX", 4),
        ("W", 1, 44, "", 1),
        ("W", 1, 44, "DRC", 0),
        ("W", 1, 44, "ctr", 3),
        ("NIAC", 1, 44, "XXX", 0),
        ("N", 1, 48, "", 0),
        ("N", 1, 48, "00", 0),
        ("N", 1, 48, "52", 0),
        ("N", 1, 48, "2 ", 3),
        ("WIAC", 1, 48, "XX", 0),
        ("I", 1, 51, "Western Union", 0),
        ("I", 1, 51, "Electronic", 0),
        ("I", 1, 51, "Check", 0),
        ("I", 1, 51, "Checks", 3),
        ("I", 1, 51, "00000000000000000000", 3),
        ("NWAC", 1, 51, "X", 0),
        ("NWIAC", 1, 52, "EUR", 0),
        ("NWIAC", 1, 52, "XXX", 4),
        ("A", 1, 54, "", 1),
        ("A", 1, 55, "", 1),
        ("A", 1, 56, "", 1),
        ("A", 1, 56, "2013-1-1", 5),
        ("C", 1, 59, "", 1),
        ("C", 1, 59, "20131131", 5),
        ("N", 1, 62, "", 1),
        ("N", 1, 62, "CTX", 0),
        ("N", 1, 62, "WEB", 3),
        ("WIAC", 1, 62, "WEB", 0),
        ("NWIC", 2, 66, "", 1),
        ("A", 2, 66, "", 0),
        ("NWIAC", 3, 99, "", 1),
        ("NWIAC", 3, 99, "1A", 2),
        ("NWIAC", 3, 99, "00000002", 13),
        ("NWIAC", 3, 100, "", 1),
        ("NWIAC", 3, 100, "12345A", 2),
        ("NWIAC", 3, 100, "00000000000000012346", 14),
    ];

    #[test]
    fn single_fields() {
        for &(letters, record, field, value, reason) in SINGLE_FIELDS {
            for letter in letters.chars() {
                let expected = if reason == 0 { SOUND } else { [reason, record as u64 + 2, field] };
                assert_eq!(changed(letter, &[(record, field, value)]), expected, "{letter} {field} {value}");
            }
        }
    }

    /// 01 Header and Detail: what hangs together in checks.
    #[test]
    fn checks() {
        let symbol = |value: &str| {
            let joined: &str = &format!("{value:<4}00000007");
            changed('C', &[(0, 18, value), (0, 6, joined), (1, 23, joined), (2, 65, joined)])
        };
        assert_eq!(symbol("0999"), [8, 2, 18]);
        assert_eq!(symbol("1000"), SOUND);
        assert_eq!(symbol("9998"), SOUND);
        assert_eq!(symbol("9999"), [8, 2, 18]);
        assert_eq!(symbol("10A"), [2, 2, 18]);
        assert_eq!(changed('C', &[(0, 19, "0000000A"), (0, 6, "10000000000A")]), [2, 2, 19]);

        assert_eq!(changed('C', &[(1, 58, "00000008")]), [7, 3, 23]);
        assert_eq!(
            changed('C', &[(1, 23, "100000000008"), (2, 65, "100000000008"), (1, 58, "00000008")]),
            [7, 3, 58]
        );
        assert_eq!(changed('C', &[(1, 23, "1000"), (2, 65, "1000"), (1, 58, "")]), [1, 3, 58]);
        assert_eq!(changed('C', &[(1, 25, "1")]), [8, 3, 24]);
        let zero = cents(0);
        assert_eq!(changed('C', &[(1, 25, "1"), (1, 24, &zero), (3, 100, &zero)]), SOUND);
        assert_eq!(changed('C', &[(1, 24, &zero), (3, 100, &zero)]), SOUND);

        let limit = |letter, paid| fault(batch(letter, "S", &[(paid, vec![])]));
        assert_eq!(limit('C', 9_999_999_999), SOUND);
        assert_eq!(limit('C', 10_000_000_000), [8, 3, 24]);
        assert_eq!(limit('W', 10_000_000_000), SOUND);

        assert_eq!(fault(batch('C', "", &[(1, vec![]), (2, vec![]), (3, vec![])])), SOUND);
        let mut past_eight_digits = batch('C', "", &[(1, vec![]), (2, vec![])]);
        put(&mut past_eight_digits[0], 19, "99999999");
        put(&mut past_eight_digits[0], 6, "100099999999");
        for (record, serial) in [(1, "99999999"), (3, "00000000")] {
            put(&mut past_eight_digits[record], 23, &format!("1000{serial}"));
            put(&mut past_eight_digits[record], 58, serial);
            put(&mut past_eight_digits[record + 1], 65, &format!("1000{serial}"));
        }
        assert_eq!(fault(past_eight_digits), [7, 5, 58]);
    }

    /// 01 Batch reasons 6, over batches rejected and not, and the rows' own numbers and totals.
    #[test]
    fn repeats_and_rows() {
        let sound = batch('N', "S1", &[(100, vec![])]);
        let mut rejected = batch('W', "S2", &[(20, vec![]), (3, vec![])]);
        put(&mut rejected[0], 7, "");
        let mut no_amount = batch('I', "S2", &[(7, vec![]), (9, vec![])]);
        put(&mut no_amount[1], 24, "7A");
        let other = batch('A', "S3", &[(5, vec![])]);
        assert_eq!(
            rows(&file(&[sound, rejected, no_amount, other])),
            [
                [0, 0, 22, 6, 0, 137, 4, 0],
                [2, 4, 1, 0, 100, 0, 0, 0],
                [6, 6, 2, 0, 23, 1, 6, 7],
                [12, 6, 2, 0, 9, 6, 12, 6],
                [18, 4, 1, 0, 5, 0, 0, 0],
            ]
        );

        let mut repeated_id = batch('N', "S1", &[(1, vec![]), (2, vec![])]);
        put(&mut repeated_id[3], 23, "ID0");
        put(&mut repeated_id[4], 65, "ID0");
        assert_eq!(fault(repeated_id), [6, 5, 23]);
        assert_eq!(changed('N', &[(1, 23, ""), (2, 65, "")]), [1, 3, 23]);
    }

    /// 01 Worked examples: twenty nines plus 1. No field holds that total, so the file is refused; its digits are still exact.
    #[test]
    fn totals_past_64_bits() {
        let nines = 10u128.pow(20) - 1;
        assert_eq!(split(nines + 1), (10_000_000_000, 0));
        assert_eq!(
            rows(&file(&[batch('N', "S", &[(nines, vec![])])]))[1],
            [2, 4, 1, 9_999_999_999, 9_999_999_999, 0, 0, 0]
        );
        assert_eq!(answer(&file(&[batch('N', "S", &[(nines, vec![]), (1, vec![])])])), 1_300_008);
    }

    /// One payment of 100 with these DT, under a location that is no CARS Reporter.
    fn with_tas(entries: &[(&str, u128)]) -> [u64; 3] {
        let others = entries.iter().map(|&(betc, amount)| tas("ID0", betc, amount)).collect();
        fault(batch('N', "S", &[(100, others)]))
    }

    /// 01 Worked examples and Sums.
    #[test]
    fn tas_sums() {
        assert_eq!(with_tas(&[("DEBIT", 130), ("CREDIT", 30)]), SOUND);
        assert_eq!(with_tas(&[("CREDIT", 100)]), SOUND);
        assert_eq!(with_tas(&[("CREDIT", 50), ("CREDIT", 50)]), [9, 3, 87]);
        assert_eq!(with_tas(&[("", 60), ("DEBIT", 40)]), SOUND);
        assert_eq!(with_tas(&[("DEBIT", 99)]), [9, 3, 87]);
        assert_eq!(with_tas(&[("OTHER", 100)]), [4, 5, 86]);
        assert_eq!(with_tas(&[("CREDIT", 30), ("DEBIT", 130), ("OTHER", 0)]), [4, 7, 86]);
    }

    #[test]
    fn tas_fields() {
        let with = |letter: char, location: &str, changes: &[(u64, &str)]| {
            let mut records = batch(letter, "S", &[(100, vec![tas(&id(letter, 0), "DEBIT", 100)])]);
            match letter {
                'C' => put(&mut records[1], 29, location),
                _ => put(&mut records[0], 14, location),
            }
            changes.iter().for_each(|&(field, value)| put(&mut records[3], field, value));
            fault(records)
        };
        for letter in "NC".chars() {
            assert_eq!(with(letter, PLAIN, &[]), SOUND);
            assert_eq!(with(letter, REPORTER, &[]), [1, 5, 80]);
            assert_eq!(with(letter, REPORTER, &[(80, "0")]), [1, 5, 84]);
            assert_eq!(with(letter, REPORTER, &[(80, "0"), (84, "0")]), [1, 5, 85]);
            assert_eq!(with(letter, REPORTER, &[(80, "0"), (84, "0"), (85, "0")]), SOUND);
            assert_eq!(with(letter, REPORTER, &[(80, "0"), (84, "0"), (85, "0"), (86, "")]), [1, 5, 86]);
            assert_eq!(with(letter, PLAIN, &[(87, "")]), [1, 5, 87]);
            assert_eq!(with(letter, PLAIN, &[(87, "100A")]), [2, 5, 87]);
            assert_eq!(with(letter, PLAIN, &[(88, "1")]), SOUND);
        }
        assert_eq!(changed('N', &[(0, 14, REPORTER)]), [11, 3, 76]);
        assert_eq!(changed('C', &[(1, 29, REPORTER)]), [11, 3, 76]);
        assert_eq!(changed('C', &[(0, 14, REPORTER)]), SOUND);
        assert_eq!(changed('N', &[(1, 29, REPORTER)]), SOUND);
    }

    /// One cent each, with these numbers in field 84.
    fn tas_of_kinds(numbers: Range<usize>) -> Vec<Raw> {
        let of_kind = |number| record("DT", &[(84, &format!("{number:04}")), (87, &cents(1))]);
        numbers.map(of_kind).collect()
    }

    /// A batch of these DT, debits or without BETC, so many to a payment. Payment IDs fill their field.
    fn batch_of_tas(schedule: &str, tas: &[Raw], in_payment: usize) -> Vec<Raw> {
        let paid = |tas: &[Raw]| tas.iter().map(|tas| amount(layout::of(tas, 87)).unwrap()).sum();
        let payments: Vec<_> = tas.chunks(in_payment).map(|tas| (paid(tas), tas.to_vec())).collect();
        let mut records = batch('N', schedule, &payments);
        let last = records.len() - 1;
        let mut payments = 0;
        for record in &mut records[1..last] {
            payments += usize::from(kind(record) == Some(Kind::Detail));
            put(record, 23, &format!("{payments:020}"));
        }
        records
    }

    /// 02 W1: the request's own example, and many DT in few payments.
    #[test]
    fn many_tas_of_one_kind() {
        let one_kind = vec![tas("", "DEBIT", 1); 1_200];
        assert_eq!(fault(batch_of_tas("S", &one_kind, 1)), SOUND);
        assert_eq!(fault(batch_of_tas("S", &one_kind, 100)), SOUND);
        assert_eq!(fault(batch_of_tas("S", &tas_of_kinds(0..1_000).repeat(3), 100)), SOUND);
    }

    #[test]
    fn thousand_kinds_in_a_batch() {
        assert_eq!(fault(batch_of_tas("S", &tas_of_kinds(0..1_000), 100)), SOUND);
        let mut over = batch_of_tas("S", &tas_of_kinds(0..1_001), 100);
        let last = over.len() - 1;
        assert_eq!(fault(over.clone()), [12, 2, 76]);
        put(&mut over[0], 9, &cents(1));
        put(&mut over[last], 99, "");
        assert_eq!(fault(over.clone()), [12, 2, 76]);
        put(&mut over[last - 1], 87, &cents(2));
        assert_eq!(fault(over.clone()), [9, last as u64 - 1, 87]);
        put(&mut over[last - 1], 87, "");
        assert_eq!(fault(over), [1, last as u64 + 1, 87]);

        let late = [tas_of_kinds(0..1_000), tas_of_kinds(0..500), tas_of_kinds(1_000..1_001)].concat();
        assert_eq!(fault(batch_of_tas("S", &late, 100)), [12, 2, 76]);
        assert_eq!(fault(batch_of_tas("S", &late[..1_500], 100)), SOUND);
    }

    #[test]
    fn kinds_of_each_batch() {
        let of = |schedule, numbers| batch_of_tas(schedule, &tas_of_kinds(numbers), 100);
        let faults = |batches: &[Vec<Raw>]| -> Vec<u64> { rows(&file(batches))[1..].iter().flat_map(|row| row[5..].to_vec()).collect() };
        assert_eq!(faults(&[of("S1", 0..700), of("S2", 700..1_400)]), [0; 6]);
        let over = [of("S1", 0..700), of("S2", 0..1_001), of("S3", 300..1_300)];
        assert_eq!(faults(&over), [0, 0, 0, 12, 2 + over[0].len() as u64, 76, 0, 0, 0]);
    }

    /// 02 W1: uniqueness is over positions 23 to 54.
    #[test]
    fn what_makes_a_kind() {
        // The last DT of the tenth payment, and the only one of the eleventh.
        let after_999_kinds = |one: Raw, other: Raw| {
            let tas = [tas_of_kinds(0..999), vec![one, other]].concat();
            fault(batch_of_tas("S", &tas, 100))
        };
        let debit = tas("", "DEBIT", 1);
        let with = |field, value| {
            let mut changed = debit;
            put(&mut changed, field, value);
            changed
        };
        let differ_at = |one: Raw, other: Raw| -> Vec<usize> { (1..=RECORD).filter(|at| one[at - 1] != other[at - 1]).collect() };

        assert_eq!(after_999_kinds(debit, debit), SOUND); // but for position 22
        for field in 78..=85 {
            assert_eq!(after_999_kinds(debit, with(field, "0")), [12, 2, 76], "{field}");
        }
        let (first, last) = (with(78, "0"), with(86, "DEBIT  2"));
        assert_eq!((differ_at(debit, first), differ_at(debit, last)), (vec![23], vec![54]));
        assert_eq!(after_999_kinds(debit, first), [12, 2, 76]);
        assert_eq!(after_999_kinds(debit, last), [12, 2, 76]);
        assert_eq!(after_999_kinds(debit, with(86, "")), [12, 2, 76]);

        let large = 10u128.pow(19) + 1;
        assert_eq!(differ_at(debit, tas("", "DEBIT", large)), [55]);
        for same in [tas("", "DEBIT", large), with(87, &cents(7)), with(88, "1")] {
            assert_eq!(after_999_kinds(debit, same), SOUND);
        }

        let blank = tas("", "", 1);
        assert!(is_blank(&blank[TAS_KIND]));
        assert_eq!(after_999_kinds(blank, blank), SOUND);
        assert_eq!(after_999_kinds(blank, debit), [12, 2, 76]);
        for at in TAS_KIND.filter(|at| !place(86).contains(at)) {
            let mut other = blank;
            other[at] = 0xFF;
            assert_eq!(after_999_kinds(blank, other), [12, 2, 76], "{at}");
        }
    }

    #[test]
    fn procurement_sums() {
        let with = |amounts: &[&str]| {
            let others = amounts.iter().map(|amount| procurement("ID0", amount)).collect();
            fault(batch('N', "S", &[(100, others)]))
        };
        let (sixty, forty, hundred) = (cents(60), cents(40), cents(100));
        assert_eq!(with(&[&hundred]), SOUND);
        assert_eq!(with(&[""]), SOUND);
        assert_eq!(with(&[&sixty]), [10, 3, 96]);
        assert_eq!(with(&[&sixty, &forty]), SOUND);
        assert_eq!(with(&[&sixty, &sixty]), [10, 3, 96]);
        assert_eq!(with(&[&hundred, ""]), [1, 6, 96]);
        assert_eq!(with(&["", &hundred]), [1, 5, 96]);
        assert_eq!(with(&["100A"]), [2, 5, 96]);
    }

    /// 01 Batch reasons, Order.
    #[test]
    fn order_within_a_batch() {
        let id0 = id('N', 0);
        let others = vec![tas(&id0, "DEBIT", 99), procurement(&id0, &cents(99))];
        let mut records = batch('N', "S", &[(100, others), (5, vec![])]);
        put(&mut records[0], 9, &cents(1));
        put(&mut records[7], 100, &cents(1));
        put(&mut records[7], 99, "00000009");
        put(&mut records[5], 26, "");
        put(&mut records[4], 96, "A");
        put(&mut records[3], 87, "A");
        put(&mut records[2], 66, "");
        put(&mut records[1], 62, "");
        put(&mut records[1], 24, "");
        put(&mut records[0], 14, "");
        put(&mut records[0], 8, "A");
        // Each row: the first fault, then what mends it.
        #[rustfmt::skip]
        let steps: [([u64; 3], usize, u64, &str); 17] = [
            ([5, 2, 8], 0, 8, "2013-11-26"),
            ([1, 2, 14], 0, 14, REPORTER),
            ([1, 3, 24], 1, 24, &cents(100)),
            ([1, 3, 62], 1, 62, "CCD"),
            ([1, 4, 66], 2, 66, "NAME"),
            ([1, 5, 80], 3, 80, "0"),
            ([1, 5, 84], 3, 84, "0"),
            ([1, 5, 85], 3, 85, "0"),
            ([2, 5, 87], 3, 87, &cents(99)),
            ([2, 6, 96], 4, 96, &cents(99)),
            ([9, 3, 87], 3, 87, &cents(100)),
            ([10, 3, 96], 4, 96, &cents(100)),
            ([1, 7, 26], 5, 26, "NAME"),
            ([11, 7, 76], 0, 14, PLAIN),
            ([13, 9, 99], 7, 99, "00000002"),
            ([14, 9, 100], 7, 100, &cents(105)),
            ([14, 2, 9], 0, 9, &cents(105)),
        ];
        for (expected, record, field, value) in steps {
            assert_eq!(fault(records.clone()), expected);
            put(&mut records[record], field, value);
        }
        assert_eq!(fault(records), SOUND);
    }

    /// A batch with one record of each kind: header, detail, DX, DT, DP and BT.
    fn of_each_kind(letter: char) -> Vec<Raw> {
        let id = id(letter, 0);
        batch(
            letter,
            "S1",
            &[(12345, vec![tas(&id, "DEBIT", 12345), procurement(&id, &cents(12345))])],
        )
    }

    /// Such a batch with changes.
    fn changed_of_each(letter: char, changes: &[Change]) -> [u64; 3] {
        let mut records = of_each_kind(letter);
        for &(record, field, value) in changes {
            put(&mut records[record], field, value);
        }
        fault(records)
    }

    fn width(field: u64) -> usize {
        place(field).len()
    }

    /// Digits with blanks before, after and on both sides, and with some of the zeros that pad them.
    fn moved_number(field: u64, digits: &str) -> Vec<String> {
        let width = width(field);
        vec![
            format!("{digits:>width$}"),
            format!("{digits:<width$}"),
            format!("{digits:^width$}"),
            format!("{:>width$}", format!("0{digits}")),
            format!("{:<width$}", format!("0{digits}")),
            format!("{digits:0>width$}"),
        ]
    }

    /// 02 W3: letters, record in the batch, number and digits that leave room for blanks.
    #[rustfmt::skip]
    const NUMBERS: &[(&str, usize, u64, &str)] = &[
        ("NWIA", 0, 9, "12345"),
        ("W", 0, 12, "21030004"),
        ("N", 0, 13, "61000146"),
        ("C", 0, 15, "10"),
        ("C", 0, 19, "7"),
        ("C", 0, 20, "113"),
        ("NWIAC", 1, 24, "12345"),
        ("NWIAC", 1, 36, "501"),
        ("W", 1, 42, "21030004"),
        ("N", 1, 43, "61000146"),
        ("C", 1, 58, "7"),
        ("NWIAC", 3, 87, "12345"),
        ("NWIAC", 4, 96, "12345"),
        ("NWIAC", 5, 99, "1"),
        ("NWIAC", 5, 100, "12345"),
    ];

    #[test]
    fn numbers_moved() {
        for &(letters, record, field, digits) in NUMBERS {
            for value in moved_number(field, digits) {
                for letter in letters.chars() {
                    assert_eq!(
                        changed_of_each(letter, &[(record, field, &value)]),
                        SOUND,
                        "{letter} {field} '{value}'"
                    );
                }
            }
        }
    }

    /// A blank inside, or any other byte. What is joined from a check's numbers is tested before their shape.
    #[test]
    fn numbers_of_another_shape() {
        for &(letters, record, field, digits) in NUMBERS {
            let (first, rest) = if digits.len() > 1 { digits.split_at(1) } else { ("0", digits) };
            let values = [
                format!("{first} {rest}"),
                format!("{first}-{rest}"),
                format!("-{digits}"),
                format!("{digits}-"),
            ];
            let expected = match field {
                19 => [7, 2, 6],
                58 => [7, 3, 23],
                _ => [2, record as u64 + 2, field],
            };
            for value in values {
                for letter in letters.chars() {
                    assert_eq!(
                        changed_of_each(letter, &[(record, field, &value)]),
                        expected,
                        "{letter} {field} '{value}'"
                    );
                }
            }
        }
    }

    /// 02 W3: the moved number counts as it would if zero-padded, in every sum and rule.
    #[test]
    fn what_moved_numbers_count() {
        assert_eq!(changed_of_each('N', &[(0, 9, "  12346")]), [14, 2, 9]);
        assert_eq!(changed_of_each('N', &[(0, 9, "123450")]), [14, 2, 9]);
        assert_eq!(changed_of_each('N', &[(3, 87, " 12346")]), [9, 3, 87]);
        assert_eq!(changed_of_each('N', &[(4, 96, " 12346")]), [10, 3, 96]);
        assert_eq!(changed_of_each('N', &[(5, 99, "   2")]), [13, 7, 99]);
        assert_eq!(changed_of_each('N', &[(5, 100, "   12346")]), [14, 7, 100]);
        assert_eq!(changed('N', &[(1, 24, " 0 ")]), [8, 3, 24]);
        assert_eq!(changed('C', &[(1, 25, "1"), (1, 24, " 0"), (3, 100, "0")]), SOUND);
        assert_eq!(changed('C', &[(1, 24, "     10000000000"), (3, 100, "10000000000")]), [8, 3, 24]);
        assert_eq!(changed('C', &[(1, 24, "     9999999999"), (3, 100, "9999999999")]), SOUND);
        // Routing numbers: the prefix of nine digits.
        for (value, reason) in [(" 13000000", 0), ("130000000", 3), ("13000000 ", 0), ("   0", 0), (" 99000000", 0)] {
            let expected = if reason == 0 { SOUND } else { [reason, 2, 12] };
            assert_eq!(changed('W', &[(0, 12, value)]), expected, "{value}");
        }
        assert_eq!(changed('W', &[(0, 12, " 1300000A")]), [2, 2, 12]);
        // The month is the first two of four digits.
        for (value, reason) in [("113 ", 0), (" 113", 0), (" 13 ", 5), ("1313", 5), ("1 13", 2), ("0   ", 5)] {
            let expected = if reason == 0 { SOUND } else { [reason, 2, 20] };
            assert_eq!(changed('C', &[(0, 20, value)]), expected, "{value}");
        }

        let mut moved = batch('N', "S1", &[(100, vec![]), (20, vec![]), (3, vec![])]);
        put(&mut moved[1], 24, " 100");
        put(&mut moved[3], 24, &format!("{:>20}", 20));
        assert_eq!(rows(&file(&[moved]))[1], [2, 8, 3, 0, 123, 0, 0, 0]);
        let nines = "9".repeat(20);
        let mut other_shape = batch('N', "S1", &[(100, vec![]), (20, vec![])]);
        put(&mut other_shape[1], 24, " 1 00");
        put(&mut other_shape[3], 24, &nines);
        assert_eq!(rows(&file(&[other_shape]))[1], [2, 6, 2, 9_999_999_999, 9_999_999_999, 2, 3, 24]);
    }

    /// 02 W3: FT's numbers.
    #[test]
    fn trailer_numbers_moved() {
        let with = |field, value: &str| {
            let mut records = smallest('N');
            put(&mut records[5], field, value);
            answer(&records)
        };
        for (field, digits, other, expected) in [
            (103, "6", "7", 1_100_006),
            (104, "1", "10", 1_200_006),
            (105, "12345", "2345", 1_300_006),
        ] {
            for (value, other) in moved_number(field, digits).into_iter().zip(moved_number(field, other)) {
                assert_eq!(with(field, &value), 0, "{field} '{value}'");
                assert_eq!(with(field, &other), expected, "{field} '{other}'");
            }
            for value in [
                "",
                &format!("0 {digits}"),
                &format!(" {digits}-"),
                &format!("-{digits}"),
                &format!(" {digits} 0"),
            ] {
                assert_eq!(with(field, value), 1_000_006, "{field} '{value}'");
            }
        }
    }

    /// 02 W3: letters, record in the batch, text field and a value with blanks behind it.
    #[rustfmt::skip]
    const TEXTS: &[(&str, usize, u64, &str)] = &[
        ("NWIA", 0, 6, "X"),
        ("NWIA", 0, 10, "215"),
        ("NWIA", 0, 14, "3"),
        ("NWIAC", 1, 26, "X"),
        ("NWIAC", 1, 28, "V"),
        ("NWIAC", 1, 28, "Vendor"),
        ("C", 1, 29, "3"),
        ("NWIAC", 1, 35, "Q"),
        ("NWIAC", 1, 38, "Q"),
        ("I", 1, 51, "Check"),
        ("I", 1, 51, "Western Union"),
        ("NWIAC", 1, 52, "Q"),
        ("A", 1, 54, "X"),
        ("A", 1, 55, "X"),
        ("NWIC", 2, 66, "X"),
        ("NWIAC", 3, 80, "X"),
        ("NWIAC", 3, 84, "X"),
        ("NWIAC", 3, 85, "X"),
        ("NWIAC", 3, 86, "X"),
    ];

    /// With one blank before the text, and with all that there is room for.
    #[test]
    fn texts_moved() {
        for &(letters, record, field, text) in TEXTS {
            for value in [format!(" {text}"), format!("{text:>width$}", width = width(field))] {
                for letter in letters.chars() {
                    assert_eq!(
                        changed_of_each(letter, &[(record, field, &value)]),
                        SOUND,
                        "{letter} {field} '{value}'"
                    );
                }
            }
        }
        let reporter = [
            (0, 14, REPORTER),
            (3, 80, "  0"),
            (3, 84, "   0"),
            (3, 85, " 0"),
            (3, 86, "       X"),
        ];
        assert_eq!(changed_of_each('N', &reporter), SOUND);
        assert_eq!(changed_of_each('N', &[(3, 86, "  CREDIT")]), SOUND);

        #[rustfmt::skip]
        let wrong: &[(char, usize, u64, &str, u64)] = &[
            ('N', 0, 10, "21 5", 3),
            ('N', 0, 10, " 551", 3),
            ('N', 0, 14, "    4", 4),
            ('N', 1, 28, " Ven dor", 4),
            ('C', 1, 29, "    4", 4),
            ('N', 1, 35, " N", 4),
            ('N', 1, 38, " U", 4),
            ('W', 1, 44, " CT", 3),
            ('N', 1, 48, " 2", 3),
            ('I', 1, 51, " Western  Union", 3),
            ('N', 1, 52, " US", 4),
            ('N', 1, 62, " PP", 3),
            ('N', 3, 86, " DEBIT 2", 4),
        ];
        for &(letter, record, field, value, reason) in wrong {
            let expected = [reason, record as u64 + 2, field];
            assert_eq!(
                changed_of_each(letter, &[(record, field, value)]),
                expected,
                "{letter} {field} '{value}'"
            );
        }
    }

    /// 02 W3: InputSystem and version.
    #[test]
    fn file_header_moved() {
        let with = |field, value: &str| {
            let mut records = smallest('N');
            put(&mut records[0], field, value);
            answer(&records)
        };
        for value in [" SYSTEM", "   S", &format!("{:>40}", "S"), &format!("{:>40}", "SYSTEM")] {
            assert_eq!(with(2, value), 0, "{value}");
        }
        assert_eq!(with(2, " SYS TEM"), 800_001);
        assert_eq!(with(2, ""), 800_001);
        assert_eq!(with(3, " 20"), 900_001);
        assert_eq!(with(3, "201"), 0);
    }

    /// 02 W3: dates do not move.
    #[test]
    fn dates_stay() {
        #[rustfmt::skip]
        let moved = [
            ('N', 0, 8, " 2013-11-2"), ('N', 0, 8, "2013-11- 6"), ('N', 0, 8, "2013- 1-26"), ('N', 0, 8, " 213-11-26"),
            ('C', 0, 17, " 2013112"), ('C', 0, 17, "2013 126"), ('C', 0, 17, "201311 6"), ('C', 0, 17, " 0131126"),
            ('A', 1, 56, " 2013-11-2"), ('A', 1, 56, "2013-11- 6"), ('C', 1, 59, " 2013112"), ('C', 1, 59, "2013112 "),
        ];
        for (letter, record, field, value) in moved {
            assert_eq!(
                changed(letter, &[(record, field, value)]),
                [5, record as u64 + 2, field],
                "{field} '{value}'"
            );
        }
    }

    /// 02 W3: field 7 is moved right and padded with zeros.
    #[test]
    fn summary_number_moved() {
        for value in ["1", "     1", "  1", " ABC", "ABCDE", " ABCDE", "0", "     0", "000001", " -----"] {
            assert_eq!(changed('N', &[(0, 7, value)]), SOUND, "'{value}'");
        }
        for value in ["1 1", "   1 1", " 1 1", "1    1", "ABC EF", " 0 0", "0    0"] {
            assert_eq!(changed('N', &[(0, 7, value)]), [2, 2, 7], "'{value}'");
        }
        assert_eq!(changed('N', &[(0, 7, "")]), [1, 2, 7]);
        assert_eq!(changed('C', &[(0, 7, "1 1")]), SOUND);
    }

    /// 02 W3: 36 is a number, whose one zero is padded with zeros; 48 is text, which is not.
    #[test]
    fn zeros_of_36_and_48() {
        for value in ["    0", "0", " 0", "  000", " 00", "00000"] {
            assert_eq!(changed('N', &[(1, 36, value)]), SOUND, "'{value}'");
        }
        assert_eq!(changed('N', &[(1, 36, "0 0")]), [2, 3, 36]);
        assert_eq!(changed('N', &[(1, 36, "  1 2")]), [2, 3, 36]);
        assert_eq!(
            ["00", "", " 0", "0 ", "22"].map(|value| changed('N', &[(1, 48, value)])[0]),
            [0, 0, 3, 3, 0]
        );
    }

    /// A payment's records with these IDs: its detail's, then those of a DX, a DT and a DP.
    fn with_ids([of_detail, others @ ..]: [&str; 4]) -> Vec<Raw> {
        let mut records = file(&[of_each_kind('N')]);
        put(&mut records[2], 23, of_detail);
        for (record, id) in records[3..6].iter_mut().zip(others) {
            put(record, 65, id);
        }
        records
    }

    /// 02 W3: nesting follows.
    #[test]
    fn payment_ids_moved() {
        let far = &format!("{:>20}", "ID0");
        for ids in [
            ["ID0", "  ID0", "ID0", "ID0"],
            ["  ID0", "ID0", " ID0", far],
            [far, "ID0", far, "    ID0"],
            [" I D", "I D", "   I D", "I D"],
        ] {
            assert_eq!(rows(&with_ids(ids))[1][5..], SOUND, "{ids:?}");
        }
        for (ids, expected) in [
            (["ID0", "I D0", "ID0", "ID0"], 500_004),
            (["ID0", "ID0", " I D0", "ID0"], 500_005),
            (["ID0", "ID0", " ID0", " 0ID0"], 500_006),
            (["ID0", "", "ID0", "ID0"], 500_004),
            (["", "", "", " ID0"], 500_006),
            (["00", "0", "00", "00"], 500_004),
        ] {
            assert_eq!(answer(&with_ids(ids)), expected, "{ids:?}");
        }
        assert_eq!(rows(&with_ids(["", "", "", ""]))[1][5..], [1, 3, 23]);
    }

    /// 02 W3: repeats follow.
    #[test]
    fn repeats_moved() {
        let faults = |schedule_numbers: [&str; 3]| {
            let batches = schedule_numbers.map(|number| batch('N', number, &[(1, vec![])]));
            [1, 2, 3].map(|row| rows(&file(&batches))[row][5])
        };
        assert_eq!(faults(["S1", " S1", "S 1"]), [0, 6, 0]);
        assert_eq!(faults([" S1", "S", "S1"]), [0, 0, 6]);
        assert_eq!(faults(["            S1", "0S1", "    S1"]), [0, 0, 6]);
        assert_eq!(faults(["", "  ", "S1"]), [1, 1, 0]);

        let of_ids = |ids: [&str; 2]| {
            let mut records = batch('N', "S1", &[(1, vec![]), (2, vec![])]);
            for (at, id) in [(1, ids[0]), (3, ids[1])] {
                put(&mut records[at], 23, id);
                put(&mut records[at + 1], 65, id);
            }
            fault(records)
        };
        assert_eq!(of_ids(["ID", "   ID"]), [6, 5, 23]);
        assert_eq!(of_ids([&format!("{:>20}", "ID"), "ID"]), [6, 5, 23]);
        assert_eq!(of_ids(["ID", "I D"]), SOUND);
        assert_eq!(of_ids([" 7", "07"]), SOUND);
        assert_eq!(of_ids(["  ", "ID"]), [1, 3, 23]);
    }

    /// 02 W3: what is joined from corrected numbers is not moved again.
    #[test]
    fn check_numbers_moved() {
        #[rustfmt::skip]
        let sound: &[&[Change]] = &[
            &[(0, 19, "7")],
            &[(0, 19, "       7")],
            &[(0, 19, "   07  ")],
            &[(1, 58, "7"), (0, 19, "  7")],
            &[(1, 58, "  0007")],
            &[(0, 6, "  100000000007")],
            &[(0, 6, " 100000000007"), (0, 19, " 7 ")],
            &[(1, 23, "        100000000007")],
            &[(1, 23, "   100000000007"), (2, 65, " 100000000007"), (1, 58, "7")],
        ];
        for changes in sound {
            assert_eq!(changed('C', changes), SOUND, "{changes:?}");
        }
        #[rustfmt::skip]
        let unsound: &[(&[Change], [u64; 3])] = &[
            (&[(0, 18, "999"), (0, 6, "099900000007"), (1, 23, "099900000007"), (2, 65, "099900000007")], [8, 2, 18]),
            (&[(0, 18, " 999"), (0, 6, "099900000007")], [8, 2, 18]),
            (&[(0, 18, "999"), (0, 6, "999 00000007")], [7, 2, 6]),
            (&[(0, 18, "999"), (0, 6, "99900000007")], [7, 2, 6]),
            (&[(0, 6, "10007")], [7, 2, 6]),
            (&[(0, 19, "7"), (0, 6, "1000       7")], [7, 2, 6]),
            (&[(0, 19, "7"), (0, 6, "10007")], [7, 2, 6]),
            // Of any other shape they are moved like text before they are joined.
            (&[(0, 18, " 10A"), (0, 6, "10A 00000007")], [2, 2, 18]),
            (&[(0, 18, " 10A"), (0, 6, " 10A00000007")], [7, 2, 6]),
            (&[(0, 18, "1 00"), (0, 6, "1 0000000007")], [2, 2, 18]),
            (&[(0, 19, "      7A"), (0, 6, "10007A")], [2, 2, 19]),
            (&[(0, 19, "  0  7"), (0, 6, "10000  7")], [2, 2, 19]),
            (&[(0, 19, ""), (0, 6, "1000")], [1, 2, 19]),
            // What is joined begins with blanks, and no corrected field does.
            (&[(0, 18, ""), (0, 6, "    00000007")], [7, 2, 6]),
            (&[(0, 18, ""), (0, 6, "00000007")], [7, 2, 6]),
            (&[(1, 58, "7"), (1, 23, "10007"), (2, 65, "10007")], [7, 3, 23]),
            (&[(1, 58, "  7A"), (1, 23, "10007A"), (2, 65, "10007A")], [2, 3, 58]),
            (&[(1, 58, ""), (1, 23, "  1000"), (2, 65, "1000")], [1, 3, 58]),
            (&[(1, 58, "8"), (1, 23, "100000000008"), (2, 65, "100000000008")], [7, 3, 58]),
            (&[(1, 58, "8"), (1, 23, "100000000007")], [7, 3, 23]),
        ];
        for (changes, expected) in unsound {
            assert_eq!(changed('C', changes), *expected, "{changes:?}");
        }
    }

    /// 02 W3: all blank stays blank.
    #[test]
    fn all_blank_as_before() {
        for &(letters, record, field, _) in NUMBERS {
            let expected = match field {
                19 => [7, 2, 6],
                58 => [7, 3, 23],
                36 | 96 => SOUND,
                _ => [1, record as u64 + 2, field],
            };
            for letter in letters.chars() {
                assert_eq!(changed_of_each(letter, &[(record, field, "")]), expected, "{letter} {field}");
            }
        }
    }

    /// 02 W3: codes are corrected before their order is tested, and then looked up.
    #[test]
    fn books_moved() {
        let with = |kind: usize, bytes: Vec<u8>, record: usize, field, value: &str| {
            let mut sections = sections();
            sections[kind - 1] = bytes;
            let (mut records, mut report) = (smallest('N'), [0; ROOM]);
            put(&mut records[record], field, value);
            let answer = judge(records.as_flattened(), &sections.concat(), &[], &mut report);
            (answer, report[ROW + 40])
        };
        let currencies = |codes: [&str; 2]| section_bytes(7, &codes.map(|code| (code, 3, &[][..])));
        // Ascending as they stand, not once corrected.
        assert_eq!(with(7, currencies([" B", "A"]), 2, 52, "").0, 400_000);
        assert_eq!(with(7, currencies([" A", "A"]), 2, 52, "").0, 400_000);
        assert_eq!(with(7, currencies(["  A", " A"]), 2, 52, "").0, 400_000);
        // Ascending once corrected, not as they stand.
        for value in ["A", " A", "  A", "B", " B", "  B"] {
            assert_eq!(with(7, currencies(["A", " B"]), 2, 52, value), (0, 0), "{value}");
            assert_eq!(with(7, currencies(["A", "  B"]), 2, 52, value), (0, 0), "{value}");
            assert_eq!(with(7, currencies([" A", " B"]), 2, 52, value), (0, 0), "{value}");
        }
        assert_eq!(with(7, currencies(["A", " B"]), 2, 52, "AB"), (0, 4));
        assert_eq!(with(7, currencies(["A", " A "]), 2, 52, "").0, 400_000);
        // An all-blank code stays, and comes before every letter but after the byte 3F.
        assert_eq!(with(7, currencies(["", "  A"]), 2, 52, " A"), (0, 0));
        assert_eq!(with(7, currencies(["  A", ""]), 2, 52, " A").0, 400_000);
        assert_eq!(
            with(7, vec![8, 0, 0, 0, 7, 0, 0x40, 0xC1, 0x40, 0xC1, 0x3F, 0x40], 2, 52, "A").0,
            400_000
        );
        assert_eq!(
            with(7, vec![8, 0, 0, 0, 7, 0, 0xC1, 0x3F, 0x40, 0x40, 0xC1, 0x40], 2, 52, "A"),
            (0, 0)
        );

        // The flag is no part of the code.
        let locations = |codes: [(&str, u8); 2]| section_bytes(2, &[(codes[0].0, 8, &[codes[0].1]), (codes[1].0, 8, &[codes[1].1])]);
        assert_eq!(with(2, locations([("      11", 0), ("     111", 1)]), 1, 14, " 11"), (0, 0));
        assert_eq!(with(2, locations([("      11", 0), ("     111", 1)]), 1, 14, "111"), (0, 11));
        assert_eq!(with(2, locations([("      11", 0), ("11", 1)]), 1, 14, "11").0, 400_000);
        assert_eq!(with(2, locations([("     111", 0), ("      11", 1)]), 1, 14, "11").0, 400_000);

        assert_eq!(
            with(1, section_bytes(1, &[(&format!("{:>40}", "NEW"), 40, &[])]), 0, 2, " NEW"),
            (0, 0)
        );
        assert_eq!(with(4, section_bytes(4, &[("    Vendor", 25, &[])]), 1, 10, "5515"), (0, 0));
        assert_eq!(with(5, section_bytes(5, &[("NY", 2, &[]), (" Z", 2, &[])]), 2, 35, "Z"), (0, 0));
        assert_eq!(with(6, section_bytes(6, &[(" A", 2, &[]), ("US", 2, &[])]), 2, 38, "A"), (0, 0));
    }

    /// 02 W1 and W3: each of fields 78 to 86 is corrected within itself.
    #[test]
    fn kinds_moved() {
        let after_999_kinds = |one: &[(u64, &str)], other: &[(u64, &str)]| {
            let of = |fields: &[(u64, &str)]| record("DT", &[fields, &[(87, &cents(1))]].concat());
            fault(batch_of_tas("S", &[tas_of_kinds(0..999), vec![of(one), of(other)]].concat(), 100))
        };
        for field in (78..=86).filter(|&field| width(field) > 1) {
            let far = &format!("{:>width$}", "X", width = width(field));
            assert_eq!(after_999_kinds(&[(field, "X")], &[(field, far)]), SOUND, "{field}");
            assert_eq!(after_999_kinds(&[(field, far)], &[(field, "X")]), SOUND, "{field}");
        }
        assert_eq!(after_999_kinds(&[(79, " X"), (84, "  1")], &[(79, "  X"), (84, "1")]), SOUND);
        assert_eq!(after_999_kinds(&[(79, "X X")], &[(79, "XX")]), [12, 2, 76]);
        assert_eq!(after_999_kinds(&[(78, " X")], &[(79, "X")]), [12, 2, 76]);
        assert_eq!(after_999_kinds(&[(84, "1")], &[(84, "01")]), [12, 2, 76]);
        assert_eq!(after_999_kinds(&[(86, "    X")], &[(86, "X")]), SOUND);
    }

    /// 02 W2 and W3: a file in ASCII is translated first; its blank is 20.
    #[test]
    fn ascii_moved() {
        for letter in "NCWIA".chars() {
            let mut records = file(&[of_each_kind(letter)]);
            let (plain, id) = (rows(&records), id(letter, 0));
            put(&mut records[0], 2, "   SYSTEM");
            put(&mut records[1], 7, " 1");
            put(&mut records[2], 23, &format!("{id:>20}"));
            put(&mut records[2], 24, "  12345");
            put(&mut records[2], 28, " Vendor");
            put(&mut records[3], 65, &format!("  {id}"));
            put(&mut records[4], 87, "12345");
            put(&mut records[6], 99, "  1");
            put(&mut records[7], 103, &format!("{:>18}", 8));
            assert_eq!(rows(&records), plain, "{letter}");
            assert_eq!(rows(&in_ascii(&records)), plain, "{letter}");
        }
        let with = |record: usize, at: usize, byte| {
            let mut records = in_ascii(&smallest('N'));
            records[record][at] = byte;
            answer(&records)
        };
        // 40 is no blank in ASCII: it becomes 7C.
        assert_eq!(with(5, place(103).start, b' '), 0);
        assert_eq!(with(5, place(103).start, 0x40), 1_000_006);
        assert_eq!(with(3, place(65).end - 1, b' '), 0);
        assert_eq!(with(3, place(65).end - 1, 0x40), 500_004);
        assert_eq!(with(3, place(65).end - 1, 0x1F), 500_004);
        assert_eq!(with(5, place(103).start, 0x1F), 700_006);
    }

    /// 02 W4: the whole calendar, forth and back.
    #[test]
    fn calendar() {
        let digits = |Day { year, month, day }| (year * 10_000 + month * 100 + day) as u32;
        let (mut day, mut days) = (FIRST_DAY, vec![digits(FIRST_DAY)]);
        while day < LAST_DAY {
            let next = day.next();
            assert!(day < next && next.previous() == day);
            days.push(digits(next));
            day = next;
        }
        assert!(FIRST_DAY.previous() == FIRST_DAY && LAST_DAY.next() == LAST_DAY);
        let number = |date: &str| days.binary_search(&date.parse().unwrap()).ok();
        assert_eq!(
            ["00010101", "00011231", "19700101", "20000229", "20000301", "99991231"].map(number),
            [0, 364, 719_162, 730_178, 730_179, 3_652_058].map(Some)
        );
        let long = |year| (1..=12).map(|month| days_in(year, month)).sum::<u64>();
        assert_eq!([1900, 2000, 2023, 2024, 2100, 2400].map(long), [365, 366, 365, 366, 365, 366]);

        for (today, back_180, ahead_30, ahead_31) in [
            ("20240229", "20230902", "20240330", "20240331"),
            ("20231231", "20230704", "20240130", "20240131"),
            ("20000130", "19990803", "20000229", "20000301"),
            ("19000130", "18990803", "19000301", "19000302"),
            ("00010629", "00010101", "00010729", "00010730"),
            ("00010101", "00010101", "00010131", "00010201"),
            ("99991201", "99990604", "99991231", "99991231"),
        ] {
            let limits = Today::read(&bytes(today)).unwrap();
            let expected = [today, back_180, ahead_30, ahead_31].map(number);
            let found = [limits.today, limits.back_180, limits.ahead_30, limits.ahead_31];
            assert_eq!(found.map(|day| days.binary_search(&digits(day)).ok()), expected, "{today}");
        }
    }

    /// What is said of the smallest check batch, with today, its creation date, its accounting month and its issue date.
    fn dated(letter: char, today: &str, [created, month, issued]: [&str; 3]) -> [u64; 3] {
        let mut records = batch(letter, "S1", &[(12345, vec![])]);
        put(&mut records[0], 17, created);
        put(&mut records[0], 20, month);
        put(&mut records[1], 59, issued);
        rows_on(today, &file(&[records]))[1][5..].try_into().unwrap()
    }

    const CREATION: [u64; 3] = [15, 2, 17];
    const MONTH: [u64; 3] = [15, 2, 20];
    const ISSUE: [u64; 3] = [15, 3, 59];

    /// 02 W4: the creation date is not after today.
    #[test]
    fn creation_dates() {
        #[rustfmt::skip]
        let cases = [
            ("20240229", "20240229", SOUND), ("20240229", "20240228", SOUND), ("20240229", "20240301", CREATION),
            ("20240229", "00010101", SOUND), ("20240229", "99991231", CREATION), ("20240229", "20250101", CREATION),
            ("20240229", "20230301", SOUND), ("20240301", "20240229", SOUND), ("20240228", "20240229", CREATION),
        ];
        for (today, created, expected) in cases {
            assert_eq!(dated('C', today, [created, "0224", "20240229"]), expected, "{today} {created}");
        }
        assert_eq!(dated('C', "20240229", ["20240230", "0224", "20240229"]), [5, 2, 17]);
        assert_eq!(dated('C', "20240229", ["", "0224", "20240229"]), [1, 2, 17]);
    }

    /// 02 W4: today, accounting month and issue date, with a batch created long ago.
    #[rustfmt::skip]
    const MONTHS_AND_ISSUES: &[(&str, &str, &str, [u64; 3])] = &[
        // 30, 31 and 32 days ahead. No issue date of a month 31 days ahead is 30 days ahead.
        ("20240302", "0424", "20240401", SOUND), ("20240301", "0424", "20240401", ISSUE), ("20240229", "0424", "20240401", MONTH),
        ("20240131", "0324", "20240301", SOUND), ("20240130", "0324", "20240301", ISSUE), ("20240129", "0324", "20240301", MONTH),
        ("20230130", "0323", "20230301", SOUND), ("20230129", "0323", "20230301", ISSUE), ("20230128", "0323", "20230301", MONTH),
        ("20000131", "0300", "20000301", SOUND), ("20000130", "0300", "20000301", ISSUE), ("20000129", "0300", "20000301", MONTH),
        ("20240501", "0624", "20240601", ISSUE), ("20240430", "0624", "20240601", MONTH), ("20240502", "0624", "20240601", SOUND),
        // 180 and 181 days back.
        ("20240827", "0224", "20240229", SOUND), ("20240828", "0224", "20240229", MONTH), ("20240827", "0224", "20240228", ISSUE),
        ("20230827", "0223", "20230228", SOUND), ("20230828", "0223", "20230228", MONTH), ("20230827", "0223", "20230227", ISSUE),
        ("20241027", "0424", "20240430", SOUND), ("20241028", "0424", "20240430", MONTH), ("20240629", "1223", "20231231", MONTH),
        ("20240628", "1223", "20231231", SOUND), ("20250629", "1224", "20241231", SOUND), ("20250630", "1224", "20241231", MONTH),
        // December and January.
        ("20231130", "0124", "20240101", MONTH), ("20231201", "0124", "20240101", ISSUE), ("20231202", "0124", "20240101", SOUND),
        ("20231231", "0124", "20240130", SOUND), ("20231231", "0124", "20240131", ISSUE), ("20231231", "0224", "20240201", MONTH),
        ("20240101", "1223", "20231231", SOUND), ("20240101", "0224", "20240131", ISSUE), ("20240101", "0224", "20240201", ISSUE),
        ("20240101", "1224", "20231231", MONTH), ("20231231", "1222", "20231231", MONTH), ("20231201", "0123", "20231201", MONTH),
        ("20231231", "0125", "20240101", MONTH),
        // Issue dates 180 and 181 days old, 30 and 31 days ahead.
        ("20240229", "0923", "20230902", SOUND), ("20240229", "0923", "20230901", ISSUE),
        ("20240301", "0923", "20230903", SOUND), ("20240301", "0923", "20230902", ISSUE),
        ("20240229", "0324", "20240330", SOUND), ("20240229", "0324", "20240331", ISSUE),
        ("20240228", "0324", "20240329", SOUND), ("20240228", "0324", "20240330", ISSUE),
        // The month's ends.
        ("20240315", "0324", "20240301", SOUND), ("20240315", "0324", "20240229", ISSUE), ("20240315", "0324", "20240228", ISSUE),
        ("20240315", "0324", "20240331", SOUND), ("20240315", "0324", "20240401", ISSUE), ("20240415", "0424", "20240430", SOUND),
        ("20240415", "0424", "20240501", ISSUE), ("20240415", "0424", "20240331", ISSUE), ("20240215", "0224", "20240229", SOUND),
        ("20240215", "0224", "20240301", ISSUE), ("20230215", "0223", "20230228", SOUND), ("20230215", "0223", "20230301", ISSUE),
        ("20240315", "0324", "20230315", ISSUE), ("20240315", "0324", "19240315", ISSUE), ("20240315", "0324", "21240315", ISSUE),
        // Years 00 and 99.
        ("19991130", "0100", "20000101", MONTH), ("19991201", "0100", "20000101", ISSUE), ("19991202", "0100", "20000101", SOUND),
        ("20000101", "1299", "19991231", MONTH), ("20000115", "0100", "19991231", ISSUE), ("19990615", "0699", "19990615", MONTH),
        ("20991231", "1299", "20991231", SOUND), ("20991231", "0100", "21000101", MONTH), ("21000629", "1299", "20991231", SOUND),
        ("21000630", "1299", "20991231", MONTH), ("21000101", "0100", "21000101", MONTH), ("21991231", "1299", "21991231", MONTH),
        // The calendar's ends.
        ("00010101", "0101", "00010101", MONTH), ("00010101", "1299", "00010101", MONTH), ("99991231", "1299", "99991231", MONTH),
        ("99991231", "0100", "99991231", MONTH), ("99991201", "0100", "99991231", MONTH),
    ];

    #[test]
    fn months_and_issues() {
        for &(today, month, issued, expected) in MONTHS_AND_ISSUES {
            let said = |letter, today| dated(letter, today, ["00010101", month, issued]);
            assert_eq!(said('C', today), expected, "{today} {month} {issued}");
            // Nothing lent, and batches of no checks.
            assert_eq!(said('C', ""), SOUND, "{month} {issued}");
            for letter in "NWIA".chars() {
                assert_eq!(said(letter, today), SOUND, "{letter} {today} {month} {issued}");
            }
        }
    }

    /// 02 W4: 15 is the last of its field, and the fields stay in their order.
    #[test]
    fn order_of_untimely() {
        let mut records = batch('C', "S1", &[(1, vec![]), (2, vec![])]);
        let today = "20240229";
        put(&mut records[0], 20, "1324");
        put(&mut records[0], 15, "");
        put(&mut records[3], 26, "");
        put(&mut records[3], 59, "20240230");
        // Each row: the first fault, then what mends it.
        #[rustfmt::skip]
        let steps: [([u64; 3], usize, u64, &str); 10] = [
            ([1, 2, 15], 0, 15, "1"),
            ([5, 2, 20], 0, 17, "20240301"),
            ([15, 2, 17], 0, 17, "20240229"),
            ([5, 2, 20], 0, 20, " 424"),
            ([15, 2, 20], 0, 20, " 224"),
            ([15, 3, 59], 1, 59, "20240201"),
            ([1, 5, 26], 3, 26, "NAME"),
            ([5, 5, 59], 3, 59, "20240301"),
            ([15, 5, 59], 5, 99, ""),
            ([15, 5, 59], 3, 59, "20240229"),
        ];
        for (expected, record, field, value) in steps {
            assert_eq!(rows_on(today, &file(&[records.clone()]))[1][5..], expected);
            put(&mut records[record], field, value);
        }
        assert_eq!(rows_on(today, &file(&[records]))[1][5..], [1, 7, 99]);
    }

    /// 02 W3 and W4: the month moves within its field; today stays in EBCDIC where the file is in ASCII (02 W2).
    #[test]
    fn today_beside_moved_and_ascii() {
        for (month, expected) in [
            (" 224", SOUND),
            ("224 ", SOUND),
            ("0224", SOUND),
            (" 424", MONTH),
            ("424", MONTH),
            (" 324", ISSUE),
        ] {
            assert_eq!(dated('C', "20240229", ["20240229", month, "20240229"]), expected, "{month}");
        }
        let mut records = smallest('C');
        assert_eq!(rows_on("20131126", &in_ascii(&records)), rows_on("20131126", &records));
        assert_eq!(rows_on("20131126", &in_ascii(&records))[1][5..], SOUND);
        assert_eq!(rows_on("20131125", &in_ascii(&records))[1][5..], CREATION);
        put(&mut records[2], 59, "20131201");
        assert_eq!(rows_on("20131126", &in_ascii(&records))[1][5..], ISSUE);
    }

    /// 02 W4: 14 for lent bytes that are no real day, after 4 and before 5.
    #[test]
    fn no_real_day() {
        let sound = ['N', 'C'].map(smallest);
        let on = |today: &[u8], records: &[Raw], book: &[u8], room| judge(records.as_flattened(), book, today, &mut vec![0; room]);
        for records in [&sound[0], &sound[1], &in_ascii(&sound[1])] {
            for today in ["", "20131126", "20240229", "20000229", "00010101", "99991231"] {
                assert_eq!(on(&bytes(today), records, &book(), ROOM), 0, "{today}");
            }
            #[rustfmt::skip]
            let none = [
                "2024022", "202402290", "2", "2024022920240229", "20230229", "19000229", "21000229", "20240230", "00000101", "00000229",
                "20240001", "20241301", "20240100", "20240132", "20240431", "        ", "2024 229", " 2024022", "2024022 ", "2024-2-9",
                "2024-02-29", "20240A01", "--------",
            ];
            for today in none {
                assert_eq!(on(&bytes(today), records, &book(), ROOM), 1_400_000, "{today}");
            }
            for today in [&b"20240229"[..], b"20131126", &[0; 8], &[0xF0; 8], &[0xFF; 8], b" ", &[0xF2; 850]] {
                assert_eq!(on(today, records, &book(), ROOM), 1_400_000, "{today:?}");
            }
        }

        let mut records = smallest('N');
        let (real, none) = (bytes("20240229"), bytes("20230229"));
        records[4][2] = 0x3F;
        assert_eq!([&real, &none].map(|today| on(today, &records, &book(), 127)), [600_000, 1_400_000]);
        put(&mut records[5], 1, "BT");
        assert_eq!([&real, &none].map(|today| on(today, &records, &book(), 127)), [500_006, 1_400_000]);
        assert_eq!([&real, &none].map(|today| on(today, &records, &book()[1..], 127)), [400_000; 2]);
        assert_eq!(judge(&vec![0; 65_536 * RECORD], &book(), &none, &mut []), 300_000);
        assert_eq!(judge(&vec![0; 65_535 * RECORD], &book(), &none, &mut []), 1_400_000);
        assert_eq!(judge(&[0; 851], &book(), &none, &mut []), 200_000);
        assert_eq!(judge(&[], &book(), &none, &mut []), 100_000);
    }
}
