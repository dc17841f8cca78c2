//! Answers as text.

/// One answer line: a letter, then its fields.
pub struct AnswerLine<'a> {
    text: &'a mut Vec<u8>,
}

impl<'a> AnswerLine<'a> {
    pub fn new(text: &'a mut Vec<u8>, letter: u8) -> Self {
        text.push(letter);
        AnswerLine { text }
    }

    pub fn number(self, number: impl Into<u64>) -> Self {
        self.text.push(b'\t');
        write_number(self.text, number.into());
        self
    }

    /// "a balance below zero is an ordinary value"
    pub fn value(self, value: i64) -> Self {
        self.text.push(b'\t');
        if value < 0 {
            self.text.push(b'-');
        }
        write_number(self.text, value.unsigned_abs());
        self
    }

    pub fn end(self) {
        self.text.push(b'\n');
    }
}

fn write_number(text: &mut Vec<u8>, number: u64) {
    let mut digits = [0; 20]; // as many as 64 bits need
    let mut start = digits.len();
    let mut rest = number;
    loop {
        start -= 1;
        digits[start] = b'0' + (rest % 10) as u8;
        rest /= 10;
        if rest == 0 {
            break;
        }
    }
    text.extend_from_slice(&digits[start..]);
}
