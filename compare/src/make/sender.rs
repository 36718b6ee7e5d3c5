//! Senders of ASCII (02 W2): any file, sound or damaged, turned into ASCII.

use super::damage::When;
use super::record::BLANK;
use crate::ascii::{to_ascii, CODE_PAGE_037};
use crate::random::Random;

/// What a file is written in.
#[derive(Clone, Copy, PartialEq, Eq, Debug)]
pub enum Sender {
    Ebcdic,
    Ascii {
        /// Text and codes of printable characters alone; else most files of noise are refused with 7.
        printable: bool,
        /// Damages follow in what is EBCDIC, as by a sender who mixes both.
        early: bool,
    },
}

/// One whose files the judge reads as it reads those in EBCDIC.
pub const CAREFUL: Sender = Sender::Ascii {
    printable: true,
    early: false,
};

impl Sender {
    pub fn new(random: &Random) -> Sender {
        let any = Sender::Ascii {
            printable: random.chance(2),
            early: random.chance(2),
        };
        match random.below(20) {
            0..=11 => Sender::Ebcdic,
            12..=18 => CAREFUL,
            _ => any,
        }
    }

    pub fn is_printable(self) -> bool {
        matches!(self, Sender::Ascii { printable: true, .. })
    }

    /// Whether the file is turned before the damages of that time.
    pub fn turns_before(self, when: When) -> bool {
        match self {
            Sender::Ebcdic => false,
            Sender::Ascii { early: true, .. } => when == When::AfterTotals,
            Sender::Ascii { early: false, .. } => when == When::InAscii,
        }
    }
}

/// In EBCDIC, a letter or sign for a byte of text that has no character; no digit, and the same for the same byte.
pub fn printable(byte: u8) -> u8 {
    match to_ascii(byte) {
        None if byte >= BLANK => CODE_PAGE_037[33 + usize::from(byte) % 62],
        _ => byte,
    }
}

/// Turns EBCDIC into ASCII. Bytes without a character become any that are unprintable.
pub fn turn(file: &mut [u8], random: &Random) {
    file.iter_mut()
        .for_each(|byte| *byte = to_ascii(*byte).unwrap_or_else(|| any_unprintable(random)));
}

fn any_unprintable(random: &Random) -> u8 {
    let number = random.byte(0, 160);
    number + if number < 0x20 { 0 } else { 0x7F - 0x20 }
}

/// A byte that is not printable in ASCII: mostly a tab or one beside the printable ones.
pub fn unprintable(random: &Random) -> u8 {
    random.pick(&[0x09, 0x1F, 0x7F, 0x80, 0xFF, any_unprintable(random)])
}

#[cfg(test)]
mod tests {
    use super::*;
    use crate::ascii::to_ebcdic;

    /// What has a character comes back, and all else is a low byte; what is made printable comes back whole.
    #[test]
    fn turned_and_translated() {
        let random = &Random::new(1);
        for byte in (0..=255).cycle().take(256 * 100) {
            let mut file = [byte, printable(byte)];
            turn(&mut file, random);
            let expected = to_ascii(byte).map_or(0x3F, |_| byte);
            assert_eq!(file.map(to_ebcdic)[0], expected, "{byte:02X}");
            assert_eq!(file.map(to_ebcdic)[1] < BLANK, byte < BLANK, "{byte:02X}");
            assert_eq!(to_ebcdic(unprintable(random)), 0x3F);
        }
    }

    #[test]
    fn no_digit_is_made() {
        for byte in (0..=255).filter(|&byte| to_ascii(byte).is_none()) {
            assert!(!(0xF0..=0xF9).contains(&printable(byte)) && printable(byte) != BLANK, "{byte:02X}");
        }
    }
}
