//! Records field by field, in EBCDIC (01 Bytes).

use std::ops::RangeInclusive;

use super::justify::corrected;
use crate::layout::{place, FILLERS, RECORD};
use crate::random::{lift, Random};

pub const BLANK: u8 = 0x40;
/// The largest amount of twenty digits.
pub const MOST: u128 = 99_999_999_999_999_999_999;

/// 004 section 1.2.
pub const CODES: [&str; 16] = [
    "FH", "BN", "BC", "BW", "BI", "BA", "DN", "DC", "DW", "DI", "DA", "DX", "DT", "DP", "BT", "FT",
];

/// A letter, digit, blank, hyphen or slash.
pub fn ebcdic(character: u8) -> u8 {
    match character {
        b'A'..=b'I' => 0xC1 + (character - b'A'),
        b'J'..=b'R' => 0xD1 + (character - b'J'),
        b'S'..=b'Z' => 0xE2 + (character - b'S'),
        b'a'..=b'z' => ebcdic(character.to_ascii_uppercase()) - 0x40,
        b'0'..=b'9' => 0xF0 + (character - b'0'),
        b' ' => BLANK,
        b'-' => 0x60,
        b'/' => 0x61,
        _ => panic!("no EBCDIC byte is given for {character}"),
    }
}

/// Text from the left, blanks after it (004 section 1.7).
pub fn write_text(space: &mut [u8], text: &str) {
    space.fill(BLANK);
    space
        .iter_mut()
        .zip(text.bytes())
        .for_each(|(byte, character)| *byte = ebcdic(character));
}

/// Digits to the right, zeros before them (004 section 1.7); digits that find no room are left out.
pub fn write_number(space: &mut [u8], number: u128) {
    let mut rest = number;
    for byte in space.iter_mut().rev() {
        *byte = 0xF0 + (rest % 10) as u8;
        rest /= 10;
    }
}

/// Nothing where a byte is no digit.
pub fn read_number(bytes: &[u8]) -> Option<u128> {
    let digit = |byte: &u8| (0xF0..=0xF9).contains(byte).then(|| u128::from(byte - 0xF0));
    bytes.iter().try_fold(0, |number, byte| Some(number * 10 + digit(byte)?))
}

/// A value from the left, blanks after it.
pub fn set(record: &mut [u8], field: u64, value: &[u8]) {
    let space = &mut record[place(field)];
    space.fill(BLANK);
    space.iter_mut().zip(value).for_each(|(byte, value)| *byte = *value);
}

pub fn set_text(record: &mut [u8], field: u64, text: &str) {
    write_text(&mut record[place(field)], text);
}

pub fn set_number(record: &mut [u8], field: u64, number: u128) {
    write_number(&mut record[place(field)], number);
}

/// Adds a record that is blank but for its code.
pub fn add_record<'a>(file: &'a mut Vec<u8>, code: &str) -> &'a mut [u8] {
    let start = file.len();
    file.resize(start + RECORD, BLANK);
    write_text(&mut file[start..start + 2], code);
    &mut file[start..]
}

/// Adds a record of random text with any bytes in its fillers.
pub fn add_noise<'a>(file: &'a mut Vec<u8>, code: &str, random: &Random) -> &'a mut [u8] {
    let record = add_record(file, code);
    random.fill(&mut record[2..]);
    for field in fields_of(code).filter(|field| !FILLERS.contains(field)).skip(1) {
        lift(&mut record[place(field)]);
    }
    record
}

/// The 004 fields of the record with this code; those of a detail for a code that is none of 004's.
pub fn fields_of(code: &str) -> RangeInclusive<u64> {
    match code {
        "FH" => 1..=4,
        "BN" | "BC" | "BW" | "BI" | "BA" => 5..=21,
        "DX" => 64..=75,
        "DT" => 76..=89,
        "DP" => 90..=97,
        "BT" => 98..=101,
        "FT" => 102..=106,
        _ => 22..=63,
    }
}

/// The record's code in letters, `??` where it is none of 004's.
pub fn code_of(record: &[u8]) -> &'static str {
    let same = |code: &&str| code.bytes().map(ebcdic).eq(record[..2].iter().copied());
    CODES.into_iter().find(same).unwrap_or("??")
}

/// Fills fields 9, 99, 100 and 103 to 105 with the counts and sums of the records that are there.
pub fn finish(file: &mut [u8]) {
    let records = (file.len() / RECORD) as u128;
    let (mut payments, mut total, mut header) = (0, 0, 0);
    let (mut batch_payments, mut batch_total) = (0, 0);
    for start in (0..file.len()).step_by(RECORD) {
        let record = &mut file[start..start + RECORD];
        match code_of(record) {
            "BN" | "BC" | "BW" | "BI" | "BA" => (header, batch_payments, batch_total) = (start, 0, 0),
            "DN" | "DC" | "DW" | "DI" | "DA" => {
                // 01 File answers: an amount that is not 20 digits, once corrected (02 W3), counts as zero in every sum.
                let amount = read_number(&corrected(record, 24)).unwrap_or(0);
                (payments, total) = (payments + 1, total + amount);
                (batch_payments, batch_total) = (batch_payments + 1, batch_total + amount);
            }
            "BT" => {
                set_number(record, 99, batch_payments);
                set_number(record, 100, batch_total);
                let header = &mut file[header..header + RECORD];
                if matches!(code_of(header), "BN" | "BW" | "BI" | "BA") {
                    set_number(header, 9, batch_total);
                }
            }
            "FT" => {
                set_number(record, 103, records);
                set_number(record, 104, payments);
                set_number(record, 105, total);
            }
            _ => {}
        }
    }
}
