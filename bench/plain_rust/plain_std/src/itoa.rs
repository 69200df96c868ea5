//! Numbers in digits.

pub struct Buffer {
    bytes: [u8; 40],
}

/// What is written in digits.
pub trait Integer: Copy {
    fn parts(self) -> (bool, u64);
}

impl Integer for u64 {
    #[inline(always)]
    fn parts(self) -> (bool, u64) {
        (false, self)
    }
}

impl Integer for i64 {
    #[inline(always)]
    fn parts(self) -> (bool, u64) {
        (self < 0, self.unsigned_abs())
    }
}

impl Buffer {
    #[inline(always)]
    pub fn new() -> Buffer {
        Buffer { bytes: [0; 40] }
    }

    pub fn format<I: Integer>(&mut self, number: I) -> &str {
        let (negative, mut rest) = number.parts();
        let mut at = self.bytes.len();
        loop {
            at -= 1;
            self.bytes[at] = b'0' + (rest % 10) as u8;
            rest /= 10;
            if rest == 0 {
                break;
            }
        }
        if negative {
            at -= 1;
            self.bytes[at] = b'-';
        }
        std::str::from_utf8(&self.bytes[at..]).expect("digits")
    }
}
