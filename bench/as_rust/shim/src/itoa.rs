//! Numbers as decimal digits, in place of the library itoa.

/// As many bytes as the longest number has, and more.
const ROOM: usize = 40;

/// Room for the digits of a number.
pub struct Buffer {
    digits: [u8; ROOM],
}

/// A number without sign.
pub trait Integer: Copy {
    /// It as a number of 64 bits.
    fn wide(self) -> u64;
}

impl Integer for u8 {
    fn wide(self) -> u64 {
        self as u64
    }
}

impl Integer for u32 {
    fn wide(self) -> u64 {
        self as u64
    }
}

impl Integer for u64 {
    fn wide(self) -> u64 {
        self
    }
}

impl Integer for usize {
    fn wide(self) -> u64 {
        self as u64
    }
}

impl Buffer {
    /// Room for a number.
    pub fn new() -> Buffer {
        Buffer { digits: [0; ROOM] }
    }

    /// A number's digits.
    pub fn format<I: Integer>(&mut self, number: I) -> &str {
        let mut rest = number.wide();
        let mut first = ROOM;
        loop {
            first -= 1;
            self.digits[first] = b'0' + (rest % 10) as u8;
            rest /= 10;
            if rest == 0 {
                break;
            }
        }
        // digits alone, which are ASCII
        unsafe { std::str::from_utf8_unchecked(&self.digits[first..]) }
    }
}
