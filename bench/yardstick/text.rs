//! The text of responses, put together piece by piece: by `write!` whole requests take up to 2.5 times as many instructions.

/// A text that pieces are put behind.
#[derive(Default)]
pub struct Text {
    bytes: Vec<u8>,
}

impl Text {
    pub fn with_capacity(size: usize) -> Text {
        Text {
            bytes: Vec::with_capacity(size),
        }
    }

    pub fn as_bytes(&self) -> &[u8] {
        &self.bytes
    }

    pub fn clear(&mut self) {
        self.bytes.clear();
    }

    pub fn put(&mut self, piece: impl AsRef<[u8]>) -> &mut Text {
        self.bytes.extend_from_slice(piece.as_ref());
        self
    }

    /// Puts the front of a response to what is done, up to the end of its CSeq.
    pub fn put_start(&mut self, cseq: u64) -> &mut Text {
        self.put("RTSP/2.0 200 OK\r\nCSeq: ").put_decimal(cseq)
    }

    /// Puts a Session header behind the line before it, up to the end of the id.
    pub fn put_session(&mut self, id: u128) -> &mut Text {
        self.put("\r\nSession: ").put_hex::<32>(id)
    }

    pub fn put_decimal(&mut self, number: impl Into<u64>) -> &mut Text {
        let mut number = number.into();
        let mut digits = [0; 20];
        let mut first = digits.len();
        loop {
            first -= 1;
            digits[first] = b'0' + (number % 10) as u8;
            number /= 10;
            if number == 0 {
                break;
            }
        }
        self.put(&digits[first..])
    }

    /// Puts the last so many decimal digits of a number.
    pub fn put_digits<const COUNT: usize>(&mut self, mut number: u64) -> &mut Text {
        let mut digits = [0; COUNT];
        for digit in digits.iter_mut().rev() {
            *digit = b'0' + (number % 10) as u8;
            number /= 10;
        }
        self.put(digits)
    }

    /// Puts the last so many hexadecimal digits of a number.
    pub fn put_hex<const COUNT: usize>(&mut self, number: impl Into<u128>) -> &mut Text {
        let mut number = number.into();
        let mut digits = [0; COUNT];
        for digit in digits.iter_mut().rev() {
            *digit = b"0123456789abcdef"[(number & 15) as usize];
            number >>= 4;
        }
        self.put(digits)
    }
}
