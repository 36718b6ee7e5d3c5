//! Each field that 01 has a rule for: what a sound record holds there, and ways to break it.

use super::book::{near, Book, BETC, COUNTRIES, CURRENCIES, INPUT_SYSTEMS, LOCATIONS, PAYMENT_TYPES, STATES};
use super::day::days_in;
use super::justify::{justified, Justified, EBCDIC};
use super::record::{read_number, set, set_text, write_number, write_text, BLANK};
use crate::layout::place;
use crate::random::Random;

#[derive(Clone, Copy)]
pub enum Sound {
    /// Written by other means, as it hangs on other fields.
    Elsewhere,
    Digits,
    NoBlank,
    Text,
    Date,
    MonthYear,
    Routing,
    PostalCode,
    List(&'static [&'static str]),
    Code(usize),
    CodeOrBlank(usize),
}

/// How a field's bytes are broken; some draws leave it sound.
#[derive(Clone, Copy, Debug)]
pub enum Way {
    Blank,
    Zeros,
    NonDigit,
    OneBlank,
    OneByte,
    NearByte,
    /// 01 Bytes: hex 40 parts lower case from upper.
    OtherCase,
    AnyText,
    AnyDigits,
    /// One up or down, or a power that a narrow sum loses.
    Step,
    NoDate,
    AnyDate,
    /// 02 W4: a date at a limit, or one past it.
    AtLimit,
    Prefix,
    Month,
    Value(&'static str),
    /// A code of this kind from the book.
    CodeOf(usize),
    /// The value of an earlier header or detail.
    Repeat,
    /// 02 W3: that value at another place.
    RepeatMoved,
    /// The same value at another place.
    Moved,
    /// A blank inside.
    Split,
    /// By one byte, so that one at the end is lost.
    Shifted,
    /// A byte that is no blank in place of one beside the value, as only 40 is one.
    NoBlankBeside,
}

pub struct Rule {
    pub field: u64,
    /// The batches that look at the field.
    pub letters: &'static str,
    pub sound: Sound,
    pub ways: &'static [Way],
}

use Sound::*;
use Way::*;

const fn rule(field: u64, letters: &'static str, sound: Sound, ways: &'static [Way]) -> Rule {
    Rule {
        field,
        letters,
        sound,
        ways,
    }
}

pub const ALL: &str = "NCWIA";
const VOUCHER: &str = "NWIA";
#[rustfmt::skip]
const NUMBER: &[Way] = &[Blank, NonDigit, NonDigit, OneBlank, AnyDigits, Moved, Split, Split, Shifted, NoBlankBeside];
#[rustfmt::skip]
const SUM: &[Way] = &[Blank, NonDigit, OneBlank, Step, Step, Step, Zeros, Moved, Split, Shifted, NoBlankBeside];
const DATE: &[Way] = &[Blank, NoDate, NoDate, AnyDate, NonDigit, OneByte, Shifted];
#[rustfmt::skip]
const DATE_OF_CHECKS: &[Way] = &[Blank, NoDate, NoDate, AnyDate, NonDigit, OneByte, Shifted, AtLimit, AtLimit, AtLimit, AtLimit, AtLimit];
#[rustfmt::skip]
const ROUTING: &[Way] = &[Blank, NonDigit, OneBlank, Prefix, Prefix, Zeros, Moved, Split, Shifted, NoBlankBeside];
const REQUIRED: &[Way] = &[Blank, Blank, Blank, AnyText, Moved];
#[rustfmt::skip]
const LABEL: &[Way] = &[Blank, Repeat, Repeat, RepeatMoved, RepeatMoved, OneByte, AnyText, Moved, Split, Shifted, NoBlankBeside];
const FORMS: &[&str] = &["5515", "215"];
const FUNCTIONS: &[&str] = &["CTR", "BTR", "CTP", "CKS", "DEP", "DRW", "DRC"];
const MECHANISMS: &[&str] = &["Electronic", "Check", "Western Union", ""];

/// 01 Header and Detail: what may not repeat.
pub const LABEL_RULES: [Rule; 2] = [rule(6, ALL, Elsewhere, LABEL), rule(23, ALL, Elsewhere, LABEL)];

/// 01 Header, Detail and Others.
#[rustfmt::skip]
pub const BATCH_RULES: [Rule; 44] = [
    rule(7, VOUCHER, NoBlank, &[Blank, OneBlank, Zeros, AnyText, Moved, Split, Shifted]),
    rule(8, VOUCHER, Date, DATE),
    rule(9, VOUCHER, Elsewhere, SUM),
    rule(10, VOUCHER, List(FORMS), &[Blank, OneByte, NearByte, Value("0215"), Value(" 215"), Value("215"), Value("551"), Value("2155"),
        Value("21 5"), Shifted]),
    rule(12, "W", Routing, ROUTING),
    rule(13, "N", Routing, ROUTING),
    rule(14, VOUCHER, Elsewhere, &[Blank, NearByte, OneByte, AnyText, Zeros, CodeOf(LOCATIONS), CodeOf(BETC), Moved, Split, Shifted,
        NoBlankBeside]),
    rule(15, "C", Digits, NUMBER),
    rule(16, "C", List(&["0"]), &[Blank, Value("1"), OneByte, NearByte]),
    rule(17, "C", Date, DATE_OF_CHECKS),
    rule(18, "C", Elsewhere, &[Blank, NonDigit, OneBlank, Zeros, Value("0999"), Value("1000"), Value("9998"), Value("9999"), AnyDigits,
        Value(" 999"), Value("999"), Split, Shifted]),
    rule(19, "C", Elsewhere, &[Blank, NonDigit, OneBlank, Step, Value("99999999"), AnyDigits, Moved, Split, Shifted, NoBlankBeside]),
    rule(20, "C", MonthYear, &[Blank, NonDigit, OneBlank, Month, Month, Moved, Split, Shifted, Value(" 113"), Value("13"),
        AtLimit, AtLimit, AtLimit, AtLimit, AtLimit, AtLimit]),
    rule(24, VOUCHER, Elsewhere, &[Blank, NonDigit, OneBlank, Step, Zeros, Value("99999999999999999999"), Moved, Moved, Split, Shifted,
        NoBlankBeside]),
    rule(24, "C", Elsewhere, &[Blank, NonDigit, Step, Zeros, Value("00000000009999999999"), Value("00000000010000000000"), AnyDigits,
        Value("  9999999999"), Value("  10000000000"), Moved, Moved, Split, Shifted]),
    rule(25, "C", Elsewhere, &[Blank, Value("1"), Value("0"), Value("2"), OneByte, NearByte]),
    rule(26, ALL, Text, REQUIRED),
    rule(28, ALL, Code(PAYMENT_TYPES), &[Blank, NearByte, OneByte, AnyText, CodeOf(PAYMENT_TYPES), CodeOf(LOCATIONS), Moved, Split,
        Shifted, NoBlankBeside]),
    rule(29, "C", Elsewhere, &[Blank, NearByte, OneByte, AnyText, CodeOf(LOCATIONS), CodeOf(BETC), Moved, Split, Shifted, NoBlankBeside]),
    rule(35, ALL, CodeOrBlank(STATES), &[NearByte, AnyText, CodeOf(COUNTRIES), OneBlank, Zeros, Blank, Moved, Shifted]),
    rule(36, ALL, PostalCode, &[NonDigit, OneBlank, AnyText, Zeros, Blank, AnyDigits, Moved, Split, Shifted, Value(" 0"),
        Value("    0"), Value("0 0"), Value("-0")]),
    rule(38, ALL, CodeOrBlank(COUNTRIES), &[NearByte, AnyText, CodeOf(STATES), OneBlank, Zeros, Blank, Moved, Shifted]),
    rule(42, "W", Routing, ROUTING),
    rule(43, "N", Routing, ROUTING),
    rule(44, "W", List(FUNCTIONS), &[Blank, OneByte, NearByte, OtherCase, Value("CTX"), Value("DRW"), Zeros, Shifted]),
    rule(48, "N", List(&["22", "32", "42", "52", "00", ""]), &[OneByte, NearByte, Zeros, OneBlank, Value("23"), Value("62"),
        Value("02"), Value("0"), Value(" 0"), Value(" 2"), Shifted]),
    rule(51, "I", List(MECHANISMS), &[OneByte, NearByte, OtherCase, Zeros, Blank, Value("Western"), Value(" Check"), Value("Checks"),
        Moved, Moved, Split, NoBlankBeside, Value("WesternUnion")]),
    rule(52, ALL, CodeOrBlank(CURRENCIES), &[NearByte, AnyText, Zeros, OneBlank, CodeOf(STATES), Blank, Moved, Split, Shifted]),
    rule(54, "A", Text, REQUIRED),
    rule(55, "A", Text, REQUIRED),
    rule(56, "A", Date, DATE),
    rule(58, "C", Elsewhere, &[Blank, NonDigit, OneBlank, Step, AnyDigits, Moved, Split, Shifted, NoBlankBeside]),
    rule(59, "C", Date, DATE_OF_CHECKS),
    rule(62, "N", List(&["CCD", "PPD", "IAT", "CTX"]), &[Blank, OneByte, NearByte, OtherCase, Value("CTR"), Value("CTX"), Shifted]),
    rule(66, ALL, Text, REQUIRED),
    rule(80, ALL, Text, REQUIRED),
    rule(84, ALL, Text, REQUIRED),
    rule(85, ALL, Text, REQUIRED),
    rule(86, ALL, Elsewhere, &[Blank, NearByte, OneByte, AnyText, CodeOf(BETC), CodeOf(BETC), CodeOf(LOCATIONS), Moved, Split, Shifted,
        NoBlankBeside]),
    rule(87, ALL, Elsewhere, SUM),
    rule(88, ALL, Elsewhere, &[Blank, Value("0"), Value("1"), OneByte]),
    rule(96, ALL, Elsewhere, SUM),
    rule(99, ALL, Elsewhere, SUM),
    rule(100, ALL, Elsewhere, SUM),
];

/// 01 File answers 8 to 13.
#[rustfmt::skip]
pub const FILE_RULES: [Rule; 5] = [
    rule(2, ALL, Code(INPUT_SYSTEMS), &[Blank, OneByte, NearByte, AnyText, CodeOf(INPUT_SYSTEMS), CodeOf(PAYMENT_TYPES), Moved, Split,
        Shifted, NoBlankBeside]),
    rule(3, ALL, List(&["201"]), &[Blank, OneByte, NearByte, Value("200"), Value("202"), Value("20"), Value("100"), Value("201"), Shifted]),
    rule(103, ALL, Elsewhere, SUM),
    rule(104, ALL, Elsewhere, SUM),
    rule(105, ALL, Elsewhere, SUM),
];

const ROUTING_RANGES: [(u64, u64); 4] = [(0, 12), (21, 32), (61, 72), (80, 80)];

#[rustfmt::skip]
const BORDER_DATES: [&str; 8] =
    ["2024-02-29", "2000-02-29", "0001-01-01", "9999-12-31", "1600-02-29", "0004-02-29", "2023-02-28", "1900-02-28"];

#[rustfmt::skip]
const NO_DATES: [&str; 18] = [
    "2023-13-01", "2023-00-10", "2023-01-00", "2023-04-31", "2023-06-31", "2023-09-31", "2023-11-31", "2023-01-32", "2023-02-29",
    "1900-02-29", "2100-02-29", "2024-02-30", "0000-01-01", "0000-02-29", "20230-1-01", "2023-1-011", "2023/01/01", "2023 01-01",
];

pub fn set_sound(record: &mut [u8], field: u64, sound: Sound, book: &Book, random: &Random) {
    let space = &mut record[place(field)];
    match sound {
        Elsewhere => {}
        Digits => space.fill_with(|| random.byte(0xF0, 0xF9)),
        NoBlank => {
            space.fill_with(|| random.byte(0x41, 0xFF));
            let zeros = random.rarely(2, random.index(space.len() + 1), 0);
            space[..zeros].fill(0xF0);
        }
        Text => {
            space.fill(BLANK);
            if random.chance(3) {
                random.fill_text(space);
            }
            space[random.index(space.len())] = random.byte(0x41, 0xFF);
        }
        Date => write_date(space, &date(random)),
        MonthYear => write_number(space, u128::from(random.between(1, 12) * 100 + random.below(100))),
        Routing => {
            let (low, high) = random.pick(&ROUTING_RANGES);
            let prefix = random.pick(&[low, high, random.between(low, high)]);
            write_number(
                space,
                u128::from(random.rarely(20, 0, prefix * 10_000_000 + random.below(10_000_000))),
            );
        }
        PostalCode => set_text(record, field, random.pick(&["", "00000", "00001", "99999", "20500"])),
        List(values) => set_text(record, field, random.pick(values)),
        Code(kind) => set_code(record, field, book.code(kind, None, random)),
        CodeOrBlank(kind) => set_code(record, field, random.rarely(2, None, book.code(kind, None, random))),
    }
}

/// Blank where the book has no code.
pub fn set_code(record: &mut [u8], field: u64, code: Option<(&[u8], u8)>) {
    set(record, field, code.map_or(&[], |(code, _)| code));
}

/// A real day, CCYY-MM-DD.
fn date(random: &Random) -> String {
    let (year, month) = (random.between(1, 9_999), random.between(1, 12));
    let last = days_in(year as i64, month as i64) as u64;
    let day = random.pick(&[last, random.between(1, last)]);
    random.rarely(4, random.pick(&BORDER_DATES).to_string(), format!("{year:04}-{month:02}-{day:02}"))
}

/// In eight bytes without its hyphens.
fn write_date(bytes: &mut [u8], date: &str) {
    let short = if bytes.len() == 8 { &['-', '/', ' '][..] } else { &[] };
    write_text(bytes, &date.replace(short, ""));
}

pub fn break_field(record: &mut [u8], field: u64, way: Way, book: &Book, random: &Random) {
    let bytes = &mut record[place(field)];
    let at = random.index(bytes.len());
    match way {
        Blank => bytes.fill(BLANK),
        Zeros => bytes.fill(0xF0),
        NonDigit => bytes[at] = random.pick(&[BLANK, 0x60, 0xEF, 0xFA, 0xFF, 0xC1, random.byte(0x41, 0xEF)]),
        OneBlank => bytes[at] = BLANK,
        OneByte => bytes[at] = random.byte(0x40, 0xFF),
        NearByte => near(bytes, random),
        OtherCase => bytes[at] ^= 0x40,
        AnyText => random.fill_text(bytes),
        AnyDigits => bytes.fill_with(|| random.byte(0xF0, 0xF9)),
        Step => {
            let number = read_number(bytes).unwrap_or(0);
            let step = random.pick(&[1, 1, 1, 1, 10, 100, 1 << 32, 1 << 64, 10_u128.pow(10)]);
            write_number(bytes, random.rarely(2, number + step, number.abs_diff(step)));
        }
        NoDate => write_date(bytes, random.pick(&NO_DATES)),
        AnyDate => {
            let year = random.pick(&[0, 1, 4, 100, 1900, 2000, 2023, 2024, 2400, 9999]);
            write_date(bytes, &format!("{year:04}-{:02}-{:02}", random.below(14), random.below(33)));
        }
        Prefix => {
            let (low, high) = random.pick(&ROUTING_RANGES);
            write_number(
                &mut bytes[..2],
                u128::from(random.pick(&[low.max(1) - 1, high + 1, random.below(100)])),
            );
        }
        Month => write_number(&mut bytes[..2], random.pick(&[0, 13, 1, 12, 20, 99])),
        Value(text) => write_text(bytes, text),
        CodeOf(kind) => {
            let code = book.code(kind, None, random).map_or(&[][..], |(code, _)| code);
            bytes.fill(BLANK);
            bytes.iter_mut().zip(code).for_each(|(byte, code)| *byte = *code);
        }
        Repeat | AtLimit => {}
        RepeatMoved | Moved => {
            EBCDIC.move_value(bytes, justified(field), random);
        }
        Split => split(bytes, justified(field), random),
        Shifted if random.chance(2) => {
            bytes.rotate_left(1);
            bytes[bytes.len() - 1] = BLANK;
        }
        Shifted => {
            bytes.rotate_right(1);
            bytes[0] = BLANK;
        }
        NoBlankBeside => {
            let value = EBCDIC.least(bytes, justified(field)).to_vec();
            let room = bytes.len() - value.len();
            let blanks = random.index(room + 1);
            EBCDIC.put(bytes, blanks, 0, &value);
            let beside = random.pick(&[blanks.wrapping_sub(1), blanks + value.len()]);
            let byte = random.pick(&[0x41, 0x41, 0x60, 0xFF, 0x3F]);
            bytes.get_mut(beside).into_iter().for_each(|place| *place = byte);
        }
    }
}

/// A blank inside the value, which may then stand anywhere; where it fills its field, one of its bytes is lost.
pub fn split(bytes: &mut [u8], justified: Justified, random: &Random) {
    let value = match EBCDIC.least(bytes, justified) {
        digit @ [_] if justified != Justified::Text => [&[0xF0], digit].concat(),
        value => value.to_vec(),
    };
    if value.len() > 1 {
        let at = 1 + random.index(value.len() - 1);
        let (left, right) = value.split_at(at);
        let right = if value.len() < bytes.len() { right } else { &right[1..] };
        let value = [left, &[BLANK], right].concat();
        EBCDIC.put(bytes, random.index(bytes.len() - value.len() + 1), 0, &value);
    }
}
