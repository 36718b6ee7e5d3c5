//! Code books (01 Code book): sound ones, and ways to make them unsound.

use std::ops::Range;

use super::justify::{Justified, EBCDIC};
use super::record::{ebcdic, write_number, BLANK};
use super::sender::printable;
use crate::random::Random;

pub const INPUT_SYSTEMS: usize = 1;
pub const LOCATIONS: usize = 2;
pub const BETC: usize = 3;
pub const PAYMENT_TYPES: usize = 4;
pub const STATES: usize = 5;
pub const COUNTRIES: usize = 6;
pub const CURRENCIES: usize = 7;

/// The widths of the codes of kinds 1 to 7, without their flag.
pub const WIDTHS: [usize; 7] = [40, 8, 8, 25, 2, 2, 3];
/// The largest sound book.
pub const LARGEST: usize = 16_777_216;

const fn has_flag(kind: usize) -> bool {
    kind == LOCATIONS || kind == BETC
}

/// Entries, each with its flag if its kind has one, ascending. Codes are moved left (02 W3).
#[derive(Default)]
pub struct Book([Vec<Vec<u8>>; 7]);

impl Book {
    /// A code shorter than its kind's width is filled with blanks; one that is there already stays as it is.
    pub fn add(&mut self, kind: usize, code: &[u8], flag: u8) {
        let width = WIDTHS[kind - 1];
        let mut entry = vec![BLANK; width];
        let code = EBCDIC.value(code);
        entry[..code.len()].copy_from_slice(code);
        let section = &mut self.0[kind - 1];
        if let Err(place) = section.binary_search_by(|other| other[..width].cmp(&entry)) {
            entry.extend(has_flag(kind).then_some(flag));
            section.insert(place, entry);
        }
    }

    pub fn add_text(&mut self, kind: usize, code: &str, flag: u8) {
        let code: Vec<u8> = code.bytes().map(ebcdic).collect();
        self.add(kind, &code, flag);
    }

    pub fn write(&self, out: &mut Vec<u8>) {
        self.parts().iter().for_each(|part| part.write(out));
    }

    fn parts(&self) -> Vec<Part> {
        (1..=7).map(|kind| Part::new(kind, self.0[kind - 1].concat())).collect()
    }

    /// Adds codes that differ in one byte from one of flag 0: one for each of its bytes.
    pub fn add_beside(&mut self, kind: usize, random: &Random) {
        let code = self.code(kind, Some(0), random).map_or(Vec::new(), |(code, _)| code.to_vec());
        for place in 0..code.len() {
            let mut beside = code.clone();
            beside[place] = random.byte(BLANK, 0xFF);
            self.add(kind, &beside, random.below(2) as u8);
        }
    }

    /// 02 W2: no code keeps a byte of text that has no character; those that become equal are one.
    pub fn make_printable(&mut self) {
        for (kind, section) in (1..).zip(std::mem::take(&mut self.0)) {
            for entry in section {
                let (code, flag) = entry.split_at(WIDTHS[kind - 1]);
                let code: Vec<u8> = code.iter().map(|&byte| printable(byte)).collect();
                self.add(kind, &code, flag.first().copied().unwrap_or(0));
            }
        }
    }

    pub fn code(&self, kind: usize, flag: Option<u8>, random: &Random) -> Option<(&[u8], u8)> {
        self.find(kind, |_, last| flag.is_none_or(|flag| flag == last), random)
    }

    /// One that differs from this code in one byte.
    pub fn code_beside(&self, kind: usize, code: &[u8], random: &Random) -> Option<(&[u8], u8)> {
        let differ = |other: &[u8]| code.iter().zip(other).filter(|(one, other)| one != other).count();
        self.find(kind, |other, _| differ(other) == 1, random)
    }

    /// A code that a sound record may hold, and its last byte or flag: no byte below 40 and not blank.
    fn find(&self, kind: usize, is_wanted: impl Fn(&[u8], u8) -> bool, random: &Random) -> Option<(&[u8], u8)> {
        let (section, width) = (&self.0[kind - 1], WIDTHS[kind - 1]);
        let fits = |code: &[u8]| code.iter().all(|&byte| byte >= BLANK) && code.iter().any(|&byte| byte != BLANK);
        let (before, after) = section.split_at(random.index(section.len() + 1));
        let mut entries = after.iter().chain(before).map(|entry| (&entry[..width], entry[entry.len() - 1]));
        entries.find(|(code, last)| is_wanted(code, *last) && fits(code))
    }

    /// Fills the book up to `size` bytes: payment types that begin with zero bytes, and a few states for the rest.
    pub fn write_large(&mut self, size: usize, out: &mut Vec<u8>) {
        let room = size - self.parts().iter().map(|part| 6 + part.entries.len()).sum::<usize>();
        let types = room / 25 - 4;
        let types = types + (room - types * 25) % 2;
        let mut codes = vec![0; types * 25];
        for (number, code) in codes.chunks_mut(25).enumerate() {
            write_number(&mut code[15..], number as u128);
        }
        let states = self.0[STATES - 1].len() + (room - types * 25) / 2;
        for state in 0_u16..200 {
            if self.0[STATES - 1].len() < states {
                self.add(STATES, &state.to_be_bytes(), 0);
            }
        }
        let mut parts = self.parts();
        codes.append(&mut parts[PAYMENT_TYPES - 1].entries);
        parts[PAYMENT_TYPES - 1] = Part::new(PAYMENT_TYPES, codes);
        parts.iter().for_each(|part| part.write(out));
    }
}

/// One byte a step up or down: the neighbours that a search may mistake for the code.
pub fn near(code: &mut [u8], random: &Random) {
    let place = random.index(code.len());
    code[place] = code[place].wrapping_add(random.pick(&[1, 255]));
}

pub fn random_book(random: &Random) -> Book {
    let mut book = Book::default();
    if random.chance(100) {
        return book;
    }
    let most = random.pick(&[1, 2, 4, 4, 8, 8, 16, 40]) * random.rarely(60, 10, 1);
    for kind in 1..=7 {
        if !random.chance(if kind < STATES { 100 } else { 12 }) {
            random_section(&mut book, kind, most, random);
        }
    }
    book
}

/// The first two codes are of letters and digits, with flags 0 and 1.
fn random_section(book: &mut Book, kind: usize, most: u64, random: &Random) {
    let mut space = [0; 40];
    let code = &mut space[..WIDTHS[kind - 1]];
    for number in 0..random.between(1, most) + u64::from(has_flag(kind)) {
        match random.below(12) {
            0 if number > 1 => random.fill(code),
            1 | 2 if number > 1 => random.fill_text(code),
            3..=6 if number > 1 => near(code, random),
            _ => {
                let filled = 1 + random.index(code.len());
                code.fill(BLANK);
                code[..filled].fill_with(|| ebcdic(random.pick(b"ABCEFIJMNRSTUXZ0123456789abz")));
            }
        }
        book.add(kind, code, if number < 2 { number } else { random.below(2) } as u8);
    }
    if random.chance(25) {
        book.add(kind, &[], random.below(2) as u8);
    }
}

/// A section as written; damage may part its length and kind from its entries.
#[derive(Clone)]
struct Part {
    length: u32,
    kind: u16,
    entries: Vec<u8>,
}

impl Part {
    fn new(kind: usize, entries: Vec<u8>) -> Part {
        let (length, kind) = (entries.len() as u32 + 2, kind as u16);
        Part { length, kind, entries }
    }

    fn write(&self, out: &mut Vec<u8>) {
        out.extend_from_slice(&self.length.to_le_bytes());
        out.extend_from_slice(&self.kind.to_le_bytes());
        out.extend_from_slice(&self.entries);
    }

    /// The widths of its codes and of its entries.
    fn widths(&self) -> (usize, usize) {
        let kind = usize::from(self.kind).clamp(1, 7);
        (WIDTHS[kind - 1], entry_width(kind))
    }
}

#[rustfmt::skip]
#[derive(Clone, Copy, Debug)]
pub enum BookDamage {
    LengthOff, LengthWild, KindWrong, SectionsSwapped, SectionMissing, SectionTwice, SectionAfter, PartOfEntry,
    CodesEqual, CodesSwapped, FlagWrong, TrailingBytes, Cut, Empty, AnyByte,
    /// 02 W3: one code that is its neighbour's but for its place, and one that is greater than its neighbour's: both ascend as they stand.
    MovedEqual, MovedSwapped,
}

use BookDamage::*;

#[rustfmt::skip]
pub const BOOK_DAMAGES: [BookDamage; 19] = [
    LengthOff, LengthWild, KindWrong, SectionsSwapped, SectionMissing, SectionTwice, SectionAfter, PartOfEntry,
    CodesEqual, CodesSwapped, FlagWrong, TrailingBytes, Cut, Empty, AnyByte,
    MovedEqual, MovedEqual, MovedSwapped, MovedSwapped,
];

/// Writes the book with these damages, each drawn from its own seed.
pub fn write_damaged(book: &Book, damages: &[(BookDamage, u64)], out: &mut Vec<u8>) {
    let mut parts = book.parts();
    for &(damage, seed) in damages {
        damage_parts(&mut parts, damage, &Random::new(seed));
    }
    parts.iter().for_each(|part| part.write(out));
    for &(damage, seed) in damages {
        damage_bytes(out, damage, &Random::new(seed));
    }
}

fn damage_parts(parts: &mut Vec<Part>, damage: BookDamage, random: &Random) {
    let (at, other) = (random.index(parts.len()), random.index(parts.len()));
    let several = parts.len() > 1;
    let part = &mut parts[at];
    let (_, width) = part.widths();
    match damage {
        LengthOff => {
            let step = random.pick(&[1, 2, 6, width as u32, random.below(50) as u32]);
            part.length = random.rarely(2, part.length.wrapping_add(step), part.length.wrapping_sub(step));
        }
        LengthWild => part.length = random.pick(&[0, 1, u32::MAX, u32::MAX - 3, 1 << 31, part.length ^ (1 << 24), random.draw() as u32]),
        KindWrong => part.kind = random.pick(&[0, 8, part.kind ^ 1, part.kind + 1, part.kind ^ 256, random.draw() as u16]),
        SectionsSwapped => parts.swap(at, other),
        SectionMissing if several => drop(parts.remove(at)),
        SectionTwice => parts.insert(at, parts[at].clone()),
        SectionAfter => parts.push(Part::new(random.pick(&[0, 1, 7, 8]), Vec::new())),
        PartOfEntry => {
            let extra = 1 + random.index(width - 1);
            part.entries.resize(part.entries.len() + extra, 0xFF);
            part.length += extra as u32;
        }
        CodesEqual | CodesSwapped | FlagWrong | MovedEqual | MovedSwapped => {
            // The first section from there on that has the entries the damage asks for.
            let _ = (at..parts.len())
                .chain(0..at)
                .find(|&at| damage_entries(&mut parts[at], damage, random));
        }
        _ => {}
    }
}

fn damage_entries(part: &mut Part, damage: BookDamage, random: &Random) -> bool {
    let (code, width) = part.widths();
    let count = part.entries.len() / width;
    match damage {
        FlagWrong if code < width && count > 0 => part.entries[random.index(count) * width + code] = random.pick(&[2, 255, 0xF0, 0xF1]),
        CodesEqual | CodesSwapped if count > 1 => {
            let start = random.index(count - 1) * width;
            let (left, right) = part.entries[start..start + 2 * width].split_at_mut(width);
            match damage {
                CodesEqual => right[..code].copy_from_slice(&left[..code]),
                _ => left.swap_with_slice(right),
            }
        }
        MovedEqual | MovedSwapped if count > 1 => {
            let start = random.index(count - 1);
            return (start..count - 1).chain(0..start).any(|pair| {
                let (left, right) = part.entries[pair * width..(pair + 2) * width].split_at_mut(width);
                move_before(&mut left[..code], &mut right[..code], damage, random)
            });
        }
        _ => return false,
    }
    true
}

/// Two codes that ascend as they stand, as the left one begins with a blank, but not once corrected. False where it has no room for one.
fn move_before(left: &mut [u8], right: &mut [u8], damage: BookDamage, random: &Random) -> bool {
    let moved = if matches!(damage, MovedEqual) { &*left } else { &*right };
    let value = EBCDIC.value(moved).to_vec();
    let room = left.len() - value.len();
    if value.is_empty() || room == 0 {
        return false;
    }
    right.copy_from_slice(left);
    EBCDIC.put(left, 1 + random.index(room), 0, &value);
    true
}

/// The entries of each kind, where the bytes are laid out as a book.
fn sections(book: &[u8]) -> Option<Vec<Range<usize>>> {
    let mut sections = Vec::new();
    let mut end = 0;
    for kind in 1..=7 {
        let [a, b, c, d, low, high] = *book[end..].first_chunk()?;
        let (start, length) = (end + 6, u32::from_le_bytes([a, b, c, d]) as usize);
        end = start + length.checked_sub(2)?;
        if end > book.len() || u16::from_le_bytes([low, high]) != kind {
            return None;
        }
        sections.push(start..end);
    }
    Some(sections)
}

/// The width of an entry: its code, and its flag if it has one.
fn entry_width(kind: usize) -> usize {
    WIDTHS[kind - 1] + usize::from(has_flag(kind))
}

/// 02 W3: moves one in so many of the codes, where the bytes are laid out as a book; gives how many have other bytes now.
pub fn move_codes(book: &mut [u8], of: u64, random: &Random) -> u64 {
    let mut moved = 0;
    for (kind, entries) in (1..).zip(sections(book).unwrap_or_default()) {
        for entry in book[entries].chunks_exact_mut(entry_width(kind)) {
            let code = &mut entry[..WIDTHS[kind - 1]];
            moved += u64::from(random.chance(of) && EBCDIC.move_value(code, Justified::Text, random));
        }
    }
    moved
}

/// Whether the bytes are laid out as a book whose codes, read so, strictly ascend in each section.
pub fn codes_ascend(book: &[u8], read: fn(&[u8]) -> Vec<u8>) -> bool {
    let ascend = |(kind, entries): (usize, Range<usize>)| {
        let entries = book[entries].chunks_exact(entry_width(kind));
        entries
            .map(|entry| read(&entry[..WIDTHS[kind - 1]]))
            .is_sorted_by(|one, next| one < next)
    };
    sections(book).is_some_and(|sections| (1..).zip(sections).all(ascend))
}

fn damage_bytes(book: &mut Vec<u8>, damage: BookDamage, random: &Random) {
    let at = random.index(book.len());
    match damage {
        TrailingBytes => book.extend((0..random.pick(&[1, 1, 2, 5, 6, 7])).map(|_| random.byte(0, 3))),
        Cut => {
            let cut = random.pick(&[1, 1, 2, 3, 6, at]);
            book.truncate(book.len().saturating_sub(cut));
        }
        Empty => book.clear(),
        // Harmless in a code, which may hold any byte.
        AnyByte if !book.is_empty() => book[at] = random.byte(0, 255),
        _ => {}
    }
}
