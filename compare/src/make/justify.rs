//! 02 W3: values moved within their fields. What is moved here stays the same value once its justification is corrected.

use super::record::{code_of, fields_of, BLANK};
use crate::ascii::{is_ascii, to_ebcdic};
use crate::layout::{place, FILLERS};
use crate::random::{mix, Random};

#[derive(Clone, Copy, PartialEq, Eq, Debug)]
pub enum Justified {
    /// Moved left, padded with blanks.
    Text,
    /// One run of digits is padded with zeros on the left; any other shape is moved like text.
    Number,
    /// Moved right, padded with zeros: field 7.
    Right,
    /// Record codes, dates and fillers.
    Never,
}

/// The fields of which 01 asks digits.
pub const NUMBERS: [u64; 19] = [9, 12, 13, 15, 18, 19, 20, 24, 36, 42, 43, 58, 87, 96, 99, 100, 103, 104, 105];
/// Those that `record::finish` fills.
pub const TOTALS: [u64; 6] = [9, 99, 100, 103, 104, 105];

pub fn justified(field: u64) -> Justified {
    match field {
        1 | 5 | 22 | 64 | 76 | 90 | 98 | 102 => Justified::Never,
        8 | 17 | 56 | 59 => Justified::Never,
        7 => Justified::Right,
        _ if FILLERS.contains(&field) => Justified::Never,
        _ if NUMBERS.contains(&field) => Justified::Number,
        _ => Justified::Text,
    }
}

/// The blank and the zero that a file is written with.
#[derive(Clone, Copy)]
pub struct Page {
    blank: u8,
    zero: u8,
}

pub const EBCDIC: Page = Page { blank: BLANK, zero: 0xF0 };
const ASCII: Page = Page { blank: b' ', zero: b'0' };

impl Page {
    pub fn of(file: &[u8]) -> Page {
        match is_ascii(file) {
            true => ASCII,
            false => EBCDIC,
        }
    }

    fn code(self, record: &[u8]) -> &'static str {
        match self.blank {
            BLANK => code_of(record),
            _ => code_of(&[record[0], record[1]].map(to_ebcdic)),
        }
    }

    fn is_digit(self, byte: u8) -> bool {
        (self.zero..=self.zero + 9).contains(&byte)
    }

    /// The bytes without the blanks at both ends.
    pub fn value(self, bytes: &[u8]) -> &[u8] {
        let start = bytes.iter().take_while(|byte| **byte == self.blank).count();
        let blanks = bytes[start..].iter().rev().take_while(|byte| **byte == self.blank).count();
        &bytes[start..bytes.len() - blanks]
    }

    /// Whether zeros before the value do not matter.
    pub fn is_padded(self, value: &[u8], justified: Justified) -> bool {
        match justified {
            Justified::Number => !value.is_empty() && value.iter().all(|byte| self.is_digit(*byte)),
            Justified::Right => !value.is_empty() && !value.contains(&self.blank),
            Justified::Text | Justified::Never => false,
        }
    }

    /// The value in as few bytes as it takes; a zero takes one.
    pub fn least(self, bytes: &[u8], justified: Justified) -> &[u8] {
        let value = self.value(bytes);
        if !self.is_padded(value, justified) {
            return value;
        }
        let zeros = value.iter().take_while(|byte| **byte == self.zero).count();
        &value[zeros.min(value.len() - 1)..]
    }

    /// Writes so many blanks, so many zeros, the value, and blanks after it.
    pub fn put(self, bytes: &mut [u8], blanks: usize, zeros: usize, value: &[u8]) {
        bytes.fill(self.blank);
        let (pad, after) = bytes[blanks..].split_at_mut(zeros);
        pad.fill(self.zero);
        after[..value.len()].copy_from_slice(value);
    }

    /// Puts the value anywhere in its field, with any of the zeros that may pad it. Gives whether the bytes are others now; a field that is
    /// all blank stays so.
    pub fn move_value(self, bytes: &mut [u8], justified: Justified, random: &Random) -> bool {
        if justified == Justified::Never {
            return false;
        }
        let (before, value) = (bytes.to_vec(), self.least(bytes, justified).to_vec());
        let room = bytes.len() - value.len();
        let zeros = match self.is_padded(&value, justified) {
            true => random.pick(&[0, 0, 0, room, random.index(room + 1)]),
            false => 0,
        };
        let room = room - zeros;
        let blanks = random.pick(&[room.min(1), room, room / 2, random.index(room + 1)]);
        self.put(bytes, blanks, zeros, &value);
        before != bytes
    }
}

/// A field's bytes once corrected, in EBCDIC.
pub fn corrected(record: &[u8], field: u64) -> Vec<u8> {
    let (bytes, justified) = (&record[place(field)], justified(field));
    let (mut corrected, value) = (bytes.to_vec(), EBCDIC.value(bytes));
    let is_right = justified == Justified::Right || EBCDIC.is_padded(value, justified);
    match is_right && !value.is_empty() {
        _ if justified == Justified::Never => {}
        true => EBCDIC.put(&mut corrected, 0, bytes.len() - value.len(), value),
        false => EBCDIC.put(&mut corrected, 0, 0, value),
    }
    corrected
}

/// Moves one in so many of the record's fields that are wanted; gives how many have other bytes now. What is no record stays.
pub fn move_record(record: &mut [u8], page: Page, of: u64, is_wanted: impl Fn(u64) -> bool, random: &Random) -> u64 {
    let code = page.code(record);
    let fields = fields_of(code).filter(|field| code != "??" && is_wanted(*field));
    let is_moved = |field: &u64| random.chance(of) && page.move_value(&mut record[place(*field)], justified(*field), random);
    fields.filter(is_moved).count() as u64
}

/// What of an input is moved.
#[derive(Clone, Copy, Debug)]
pub struct Moves {
    seed: u64,
    /// One field, and one code, in so many.
    pub of: u64,
    /// Before the damages, which then meet moved values; the totals are moved when they are there. Else all are moved after the damages.
    pub early: bool,
    pub book: bool,
}

impl Moves {
    /// For so many inputs in five.
    pub fn new(in_five: u64, random: &Random) -> Option<Moves> {
        let moves = Moves {
            seed: random.draw(),
            of: random.pick(&[1, 1, 2, 4, 12]),
            early: random.chance(2),
            book: random.chance(2),
        };
        (random.below(5) < in_five).then_some(moves)
    }

    /// Every field and every code.
    pub fn all(seed: u64) -> Moves {
        Moves {
            seed,
            of: 1,
            early: false,
            book: true,
        }
    }

    /// The draws for one record, or for the book, by its number.
    pub fn draws(&self, number: u64) -> Random {
        Random::new(mix(self.seed ^ mix(number)))
    }
}

#[cfg(test)]
mod tests {
    use super::*;
    use crate::judge::judge;
    use crate::layout::RECORD;
    use crate::make::{input_seed, Input, Recipe};
    use std::collections::HashSet;

    const LETTER: u8 = 0xC1;

    #[test]
    fn fields_that_move() {
        let count = |wanted| (1..=106).filter(|&field| justified(field) == wanted).count();
        let kinds = [Justified::Number, Justified::Right, Justified::Never, Justified::Text];
        assert_eq!(kinds.map(count), [19, 1, 21, 65]);
    }

    /// Every move of every small field draws the same corrected bytes.
    #[test]
    fn moved_and_corrected() {
        let random = &Random::new(1);
        let bytes = [BLANK, BLANK, 0xF0, 0xF1, LETTER];
        // A number, a text and field 7.
        for (field, _) in [20, 43, 10, 7]
            .into_iter()
            .flat_map(|field| (0..5_000).map(move |draw| (field, draw)))
        {
            let mut record = [LETTER; RECORD];
            record[place(field)].fill_with(|| random.pick(&bytes));
            let before = corrected(&record, field);
            EBCDIC.move_value(&mut record[place(field)], justified(field), random);
            assert_eq!(corrected(&record, field), before, "{field}");
            let value = EBCDIC.value(&before);
            match justified(field) {
                Justified::Right if !value.is_empty() => assert_eq!(value, before),
                _ => assert!(before.starts_with(value)),
            }
            record[place(field)].copy_from_slice(&before);
            assert_eq!(corrected(&record, field), before, "{field}");
        }
    }

    /// The independent judge gives a moved input the same answer and report.
    #[test]
    fn inputs_moved() {
        let (mut input, mut moved) = (Input::default(), 0);
        for index in 0..2_000 {
            Recipe::new(input_seed(3, index)).make(&HashSet::new(), &mut input);
            let judged = |input: &Input| {
                let mut report = input.report.clone();
                (judge(&input.file, &input.book, &input.today, &mut report), report)
            };
            let before = judged(&input);
            moved += input.move_all(index).0;
            assert_eq!(judged(&input), before, "{index}");
        }
        assert!(moved > 100_000, "{moved}");
    }
}
