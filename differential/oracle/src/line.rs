//! The lines that answer a script.

/// Lines under construction.
#[derive(Default)]
pub struct Lines {
    text: Vec<u8>,
}

impl Lines {
    /// Starts a line with the operation's number.
    pub fn begin(&mut self, operation: u64) {
        self.decimal(operation);
    }

    pub fn end(&mut self) {
        self.text.push(b'\n');
    }

    pub fn number(&mut self, number: impl Into<u64>) {
        self.text.push(b' ');
        self.decimal(number.into());
    }

    pub fn numbers(&mut self, numbers: &[u64]) {
        for &number in numbers {
            self.number(number);
        }
    }

    pub fn f32(&mut self, float: f32) {
        self.number(f32_bits(float));
    }

    pub fn f64(&mut self, float: f64) {
        self.number(f64_bits(float));
    }

    pub fn text(&self) -> &[u8] {
        &self.text
    }

    pub fn clear(&mut self) {
        self.text.clear();
    }

    fn decimal(&mut self, mut number: u64) {
        let mut digits = [0; 20];
        let mut start = digits.len();
        loop {
            start -= 1;
            digits[start] = b'0' + (number % 10) as u8;
            number /= 10;
            if number == 0 {
                break;
            }
        }
        self.text.extend_from_slice(&digits[start..]);
    }
}

/// A float as its bits; every NaN is the quiet one with a clear sign.
pub fn f32_bits(float: f32) -> u32 {
    if float.is_nan() {
        0x7fc0_0000
    } else {
        float.to_bits()
    }
}

/// A float as its bits; every NaN is the quiet one with a clear sign.
pub fn f64_bits(float: f64) -> u64 {
    if float.is_nan() {
        0x7ff8_0000_0000_0000
    } else {
        float.to_bits()
    }
}
