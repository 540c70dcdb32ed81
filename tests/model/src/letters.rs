//! The accepted bytes: their classes and their EBCDIC codes.

/// The EBCDIC code of each accepted byte; 0, which is no such code, for every other.
const CODES: [u8; 256] = {
    let mut codes = [0; 256];
    let mut byte = 0;
    while byte < codes.len() {
        codes[byte] = code(byte as u8);
        byte += 1;
    }
    codes
};

const fn code(byte: u8) -> u8 {
    match byte {
        b' ' => 0x40,
        b'.' => 0x4B,
        b'<' => 0x4C,
        b'(' => 0x4D,
        b'+' => 0x4E,
        b'|' => 0x4F,
        b'&' => 0x50,
        b'!' => 0x5A,
        b'$' => 0x5B,
        b'*' => 0x5C,
        b')' => 0x5D,
        b';' => 0x5E,
        b'-' => 0x60,
        b'/' => 0x61,
        b',' => 0x6B,
        b'%' => 0x6C,
        b'_' => 0x6D,
        b'>' => 0x6E,
        b'?' => 0x6F,
        b':' => 0x7A,
        b'#' => 0x7B,
        b'@' => 0x7C,
        b'\'' => 0x7D,
        b'=' => 0x7E,
        b'"' => 0x7F,
        b'A'..=b'I' => byte - b'A' + 0xC1,
        b'J'..=b'R' => byte - b'J' + 0xD1,
        b'S'..=b'Z' => byte - b'S' + 0xE2,
        b'0'..=b'9' => byte - b'0' + 0xF0,
        _ => 0,
    }
}

/// The EBCDIC code of an accepted byte.
pub fn ebcdic(byte: u8) -> u8 {
    CODES[usize::from(byte)]
}

pub fn accepted(byte: u8) -> bool {
    ebcdic(byte) != 0
}

/// Says whether a name may start with the byte.
pub fn starts_name(byte: u8) -> bool {
    matches!(byte, b'A'..=b'Z' | b'$' | b'#' | b'@')
}

/// Says whether a name may go on with the byte.
pub fn in_name(byte: u8) -> bool {
    starts_name(byte) || byte.is_ascii_digit()
}

/// The value of a hex digit.
pub fn hex_digit(byte: u8) -> Option<u8> {
    match byte {
        b'0'..=b'9' => Some(byte - b'0'),
        b'A'..=b'F' => Some(byte - b'A' + 10),
        _ => None,
    }
}

#[cfg(test)]
mod tests {
    use super::*;

    #[test]
    fn sixty_one_bytes_are_accepted() {
        let accepted: Vec<u8> = (0..=255).filter(|&byte| accepted(byte)).collect();
        assert_eq!(accepted.len(), 61);
        let signs = b" .<(+|&!$*);-/,%_>?:#@'=\"";
        let plain = |byte: &u8| byte.is_ascii_uppercase() || byte.is_ascii_digit();
        assert!(accepted.iter().all(|byte| plain(byte) || signs.contains(byte)));
    }

    #[test]
    fn codes_are_those_of_code_page_037() {
        let signs: Vec<u8> = b" .<(+|&!$*);-/,%_>?:#@'=\"".iter().map(|&b| ebcdic(b)).collect();
        let codes = "404B4C4D4E4F505A5B5C5D5E60616B6C6D6E6F7A7B7C7D7E7F";
        assert_eq!(signs, crate::hex(codes));
        let ends: Vec<u8> = b"AIJRSZ09".iter().map(|&b| ebcdic(b)).collect();
        assert_eq!(ends, crate::hex("C1C9D1D9E2E9F0F9"));
    }
}
