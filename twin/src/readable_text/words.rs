//! The words of one line of the readable text, and the numbers among them.

/// The words of a line, without its comment.
pub struct Words<'a> {
    rest: std::str::SplitWhitespace<'a>,
}

impl<'a> Words<'a> {
    pub fn of(line: &'a str) -> Words<'a> {
        let content = line.split('#').next().unwrap_or("");
        Words { rest: content.split_whitespace() }
    }

    /// A fixed word and the number behind it.
    pub fn labelled(&mut self, label: &str, bits: u32) -> Result<u32, String> {
        match self.next() {
            Some(word) if word == label => self.number(label, bits),
            Some(word) => Err(format!("'{word}' stands where '{label}' should")),
            None => Err(format!("the line ends where '{label}' should stand")),
        }
    }

    /// A decimal number, or a hexadecimal one after 0x, of so many bits at most.
    pub fn number(&mut self, label: &str, bits: u32) -> Result<u32, String> {
        let word = self.next().ok_or_else(|| format!("the number after '{label}' is missing"))?;
        let (digits, base) = match word.strip_prefix("0x") {
            Some(digits) => (digits, 16),
            None => (word, 10),
        };
        if digits.is_empty() || !digits.chars().all(|digit| digit.is_digit(base)) {
            return Err(format!("'{word}' after '{label}' is not a number"));
        }
        match u64::from_str_radix(digits, base) {
            Ok(number) if number >> bits == 0 => Ok(number as u32),
            _ => Err(format!("{word} after '{label}' does not fit in {bits} bits")),
        }
    }

    /// The line must end here.
    pub fn finish(&mut self) -> Result<(), String> {
        match self.next() {
            Some(word) => Err(format!("'{word}' stands behind the end of the record")),
            None => Ok(()),
        }
    }
}

impl<'a> Iterator for Words<'a> {
    type Item = &'a str;

    fn next(&mut self) -> Option<&'a str> {
        self.rest.next()
    }
}
