//! Numbers in decimal digits, without the formatter of the standard library.

/// Room for the digits of a number: those of `u64::MAX` are twenty.
pub struct Buffer {
    bytes: [u8; 20],
}

impl Buffer {
    /// Returns room for a number.
    pub fn new() -> Buffer {
        Buffer { bytes: [0; 20] }
    }

    /// Returns the digits of a number.
    pub fn format(&mut self, number: usize) -> &str {
        let end = self.bytes.len();
        let at = write_digits(number as u64, &mut self.bytes, end);
        core::str::from_utf8(&self.bytes[at..]).expect("digits are UTF-8")
    }
}

/// Writes the digits of a number so that they end at `end`, and returns where they start.
#[inline]
pub fn write_digits(number: u64, bytes: &mut [u8], end: usize) -> usize {
    let mut left = number;
    let mut at = end - 1;
    bytes[at] = b'0' + (left % 10) as u8;
    while left >= 10 {
        left /= 10;
        at -= 1;
        bytes[at] = b'0' + (left % 10) as u8;
    }
    at
}

#[cfg(test)]
mod tests {
    use super::*;

    /// On both sides of each power of ten, the digits are those of the formatter.
    #[test]
    fn digits_are_those_of_the_formatter() {
        let mut buffer = Buffer::new();
        let mut power = 1usize;
        loop {
            for number in [power - 1, power, power + 1, power * 7] {
                assert_eq!(buffer.format(number), number.to_string());
            }
            power = match power.checked_mul(10) {
                Some(next) if next <= usize::MAX / 10 => next,
                _ => break,
            };
        }
        assert_eq!(buffer.format(usize::MAX), usize::MAX.to_string());
    }
}
