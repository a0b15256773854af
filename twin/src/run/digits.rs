//! Decimal and hexadecimal digits, and words with numbers behind them, appended to a text of bytes.

const HEX: &[u8; 16] = b"0123456789abcdef";

/// A number in decimal, without leading zeros.
pub fn push_decimal(text: &mut Vec<u8>, number: u64) {
    if number < 10 {
        text.push(b'0' + number as u8);
        return;
    }
    let mut digits = [0u8; 20];
    let mut first = digits.len();
    let mut rest = number;
    while rest > 0 {
        first -= 1;
        digits[first] = b'0' + (rest % 10) as u8;
        rest /= 10;
    }
    text.extend_from_slice(&digits[first..]);
}

/// A word and decimal numbers behind it, without the end of the line.
pub fn push_words(text: &mut Vec<u8>, word: &[u8], numbers: &[u64]) {
    text.extend_from_slice(word);
    for number in numbers {
        text.push(b' ');
        push_decimal(text, *number);
    }
}

/// A 32-bit number as eight hexadecimal digits.
pub fn push_hex8(text: &mut Vec<u8>, number: u32) {
    let mut digits = [0u8; 8];
    for (place, byte) in number.to_be_bytes().into_iter().enumerate() {
        digits[2 * place] = HEX[usize::from(byte >> 4)];
        digits[2 * place + 1] = HEX[usize::from(byte & 15)];
    }
    text.extend_from_slice(&digits);
}

/// A byte as two hexadecimal digits.
pub fn push_hex2(text: &mut Vec<u8>, byte: u8) {
    text.extend_from_slice(&[HEX[usize::from(byte >> 4)], HEX[usize::from(byte & 15)]]);
}
