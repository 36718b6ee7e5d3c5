//! 02 W3: fields with their justification corrected (004 section 1.7). A blank is byte 40 and nothing else.

pub const BLANK: u8 = 0x40;
pub const ZERO: u8 = 0xF0;
pub const NINE: u8 = 0xF9;

/// The field without the blanks at both ends. Two fields of one width hold the same text where this is the same.
pub fn value(field: &[u8]) -> &[u8] {
    let is_filled = |byte: &u8| *byte != BLANK;
    match (field.iter().position(is_filled), field.iter().rposition(is_filled)) {
        (Some(first), Some(last)) => &field[first..=last],
        _ => &[],
    }
}

pub fn is_digits(bytes: &[u8]) -> bool {
    bytes.iter().all(|byte| (ZERO..=NINE).contains(byte))
}

/// The one unbroken run of digits of a number, with blanks before it, after it or on both sides. None where it is of any other shape.
pub fn digits(field: &[u8]) -> Option<&[u8]> {
    let value = value(field);
    (!value.is_empty() && is_digits(value)).then_some(value)
}

/// Blanks in front go to the end; a field that is all blank stays so.
pub fn move_left(field: &mut [u8]) {
    let blanks = field.iter().take_while(|byte| **byte == BLANK).count();
    field.rotate_left(blanks);
}

/// Text over its full width of N bytes.
pub fn text<const N: usize>(field: &[u8]) -> [u8; N] {
    let mut text = [BLANK; N];
    text.copy_from_slice(field);
    move_left(&mut text);
    text
}

/// A number over its full width of N bytes: padded with zeros on the left, or moved like text where it is of any other shape.
pub fn number<const N: usize>(field: &[u8]) -> [u8; N] {
    let Some(digits) = digits(field) else {
        return text(field);
    };
    let mut number = [ZERO; N];
    number[N - digits.len()..].copy_from_slice(digits);
    number
}

#[cfg(test)]
mod tests {
    use super::*;

    /// Capital letters from A to I, digits and blanks.
    fn bytes(ascii: &str) -> Vec<u8> {
        let byte = |ascii| match ascii {
            b'0'..=b'9' => ZERO + (ascii - b'0'),
            b'A'..=b'I' => 0xC1 + (ascii - b'A'),
            _ => BLANK,
        };
        ascii.bytes().map(byte).collect()
    }

    #[test]
    fn texts() {
        let cases = [
            ("ABCD", "ABCD"),
            ("ABC ", "ABC "),
            (" ABC", "ABC "),
            ("   A", "A   "),
            (" A B", "A B "),
            (" A  ", "A   "),
            ("A  B", "A  B"),
            (" 12 ", "12  "),
            ("    ", "    "),
        ];
        for (sent, corrected) in cases {
            assert_eq!(text::<4>(&bytes(sent)).to_vec(), bytes(corrected), "{sent}");
            assert_eq!(value(&bytes(sent)), value(&bytes(corrected)), "{sent}");
        }
    }

    #[test]
    fn numbers() {
        let cases = [
            ("1234", "1234"),
            (" 123", "0123"),
            ("123 ", "0123"),
            (" 12 ", "0012"),
            ("1   ", "0001"),
            ("   1", "0001"),
            (" 0  ", "0000"),
            ("01  ", "0001"),
        ];
        for (sent, corrected) in cases {
            assert_eq!(number::<4>(&bytes(sent)).to_vec(), bytes(corrected), "{sent}");
            assert!(digits(&bytes(sent)).is_some(), "{sent}");
        }
    }

    #[test]
    fn numbers_of_another_shape() {
        for (sent, corrected) in [
            (" 1 2", "1 2 "),
            (" 1A ", "1A  "),
            ("   A", "A   "),
            ("1  2", "1  2"),
            ("    ", "    "),
        ] {
            assert_eq!(number::<4>(&bytes(sent)).to_vec(), bytes(corrected), "{sent}");
            assert_eq!(digits(&bytes(sent)), None, "{sent}");
        }
    }

    /// No byte but 40 is a blank.
    #[test]
    fn blanks() {
        for byte in (0x00..=0xFF).filter(|&byte| byte != BLANK) {
            assert_eq!(text::<3>(&[byte, 0xC1, BLANK]), [byte, 0xC1, BLANK], "{byte:02X}");
            assert_eq!(text::<3>(&[BLANK, byte, 0xC1]), [byte, 0xC1, BLANK], "{byte:02X}");
            assert_eq!(digits(&[byte, 0xF1]).is_some(), (0xF0..=0xF9).contains(&byte), "{byte:02X}");
            assert_eq!(digits(&[0xF1, byte]).is_some(), (0xF0..=0xF9).contains(&byte), "{byte:02X}");
        }
    }
}
