//! 02 W2: files in ASCII, and code page 037 for the printable characters.

use std::borrow::Cow;

/// The bytes of code page 037 for ASCII 20 to 7E.
#[rustfmt::skip]
pub const CODE_PAGE_037: [u8; 95] = [
    //     !     "     #     $     %     &     '     (     )     *     +     ,     -     .     /
    0x40, 0x5A, 0x7F, 0x7B, 0x5B, 0x6C, 0x50, 0x7D, 0x4D, 0x5D, 0x5C, 0x4E, 0x6B, 0x60, 0x4B, 0x61,
    // 0   1     2     3     4     5     6     7     8     9     :     ;     <     =     >     ?
    0xF0, 0xF1, 0xF2, 0xF3, 0xF4, 0xF5, 0xF6, 0xF7, 0xF8, 0xF9, 0x7A, 0x5E, 0x4C, 0x7E, 0x6E, 0x6F,
    // @   A     B     C     D     E     F     G     H     I     J     K     L     M     N     O
    0x7C, 0xC1, 0xC2, 0xC3, 0xC4, 0xC5, 0xC6, 0xC7, 0xC8, 0xC9, 0xD1, 0xD2, 0xD3, 0xD4, 0xD5, 0xD6,
    // P   Q     R     S     T     U     V     W     X     Y     Z     [     \     ]     ^     _
    0xD7, 0xD8, 0xD9, 0xE2, 0xE3, 0xE4, 0xE5, 0xE6, 0xE7, 0xE8, 0xE9, 0xBA, 0xE0, 0xBB, 0xB0, 0x6D,
    // `   a     b     c     d     e     f     g     h     i     j     k     l     m     n     o
    0x79, 0x81, 0x82, 0x83, 0x84, 0x85, 0x86, 0x87, 0x88, 0x89, 0x91, 0x92, 0x93, 0x94, 0x95, 0x96,
    // p   q     r     s     t     u     v     w     x     y     z     {     |     }     ~
    0x97, 0x98, 0x99, 0xA2, 0xA3, 0xA4, 0xA5, 0xA6, 0xA7, 0xA8, 0xA9, 0xC0, 0x4F, 0xD0, 0xA1,
];

/// The first printable byte of ASCII.
const FIRST: u8 = 0x20;
/// What all bytes but the printable ones become.
const UNPRINTABLE: u8 = 0x3F;

const TO_EBCDIC: [u8; 256] = {
    let mut bytes = [UNPRINTABLE; 256];
    let mut index = 0;
    while index < CODE_PAGE_037.len() {
        bytes[FIRST as usize + index] = CODE_PAGE_037[index];
        index += 1;
    }
    bytes
};

const TO_ASCII: [Option<u8>; 256] = {
    let mut bytes = [None; 256];
    let mut index = 0;
    while index < CODE_PAGE_037.len() {
        bytes[CODE_PAGE_037[index] as usize] = Some(FIRST + index as u8);
        index += 1;
    }
    bytes
};

/// FH in ASCII, with which a file in ASCII begins.
pub const ASCII_FH: [u8; 2] = [0x46, 0x48];

pub fn is_ascii(file: &[u8]) -> bool {
    file.starts_with(&ASCII_FH)
}

pub fn to_ebcdic(byte: u8) -> u8 {
    TO_EBCDIC[usize::from(byte)]
}

/// Nothing where the byte of EBCDIC has no printable character.
pub fn to_ascii(byte: u8) -> Option<u8> {
    TO_ASCII[usize::from(byte)]
}

/// The file in EBCDIC: one in ASCII is translated, any other is taken as it is.
pub fn translated(file: &[u8]) -> Cow<'_, [u8]> {
    match is_ascii(file) {
        true => file.iter().map(|&byte| to_ebcdic(byte)).collect(),
        false => Cow::Borrowed(file),
    }
}

#[cfg(test)]
mod tests {
    use super::*;

    #[test]
    fn decided_characters() {
        let decided = [
            (b'[', 0xBA),
            (b']', 0xBB),
            (b'^', 0xB0),
            (b'!', 0x5A),
            (b'|', 0x4F),
            (b'~', 0xA1),
            (b'\\', 0xE0),
            (b'{', 0xC0),
            (b'}', 0xD0),
            (b'`', 0x79),
        ];
        for (character, byte) in decided {
            assert_eq!(to_ebcdic(character), byte, "{}", char::from(character));
        }
    }

    /// 01 Bytes.
    #[test]
    fn letters_and_digits() {
        let runs = [
            (b'A'..=b'I', 0xC1),
            (b'J'..=b'R', 0xD1),
            (b'S'..=b'Z', 0xE2),
            (b'a'..=b'i', 0x81),
            (b'j'..=b'r', 0x91),
            (b's'..=b'z', 0xA2),
            (b'0'..=b'9', 0xF0),
            (b' '..=b' ', 0x40),
            (b'-'..=b'-', 0x60),
        ];
        for (characters, first) in runs {
            for (character, byte) in characters.zip(first..) {
                assert_eq!(to_ebcdic(character), byte, "{}", char::from(character));
            }
        }
    }

    #[test]
    fn no_two_characters_share_a_byte() {
        for (index, byte) in CODE_PAGE_037.iter().enumerate() {
            assert!(*byte >= 0x40);
            assert!(!CODE_PAGE_037[..index].contains(byte), "{byte:02X}");
        }
    }

    #[test]
    fn all_bytes() {
        for byte in 0..=255 {
            match byte {
                0x20..=0x7E => assert_eq!(to_ascii(to_ebcdic(byte)), Some(byte)),
                _ => assert_eq!(to_ebcdic(byte), 0x3F, "{byte:02X}"),
            }
        }
        assert_eq!((0..=255).filter_map(to_ascii).count(), 95);
        assert_eq!(to_ascii(0x3F), None);
    }

    /// A file's own first two bytes decide.
    #[test]
    fn files() {
        assert_eq!(
            *translated(b"FH 201\t~\x7F\x80\xFF\0"),
            *b"\xC6\xC8\x40\xF2\xF0\xF1\x3F\xA1\x3F\x3F\x3F\x3F"
        );
        assert_eq!(*translated(b"FH"), [0xC6, 0xC8]);
        for file in [&b""[..], b"F", b"fh", b"HF", b"F\xC8", b"\xC6H", b"\xC6\xC8 201", b" FH"] {
            assert_eq!(*translated(file), *file);
        }
    }
}
