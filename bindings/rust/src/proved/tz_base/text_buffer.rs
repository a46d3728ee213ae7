// Generated from crates/tz_base/src/text_buffer.rt by bindings/erase: its contracts are cut. Change that file instead.
//! Text that is made without an allocation.

/// Text of at most 128 bytes, which is made without an allocation.
///
/// By the bounds of the contracts a TZ string has at most 114 bytes, and a printed date time 53.
pub struct TextBuffer {
    bytes: [u8; 128],
    len: usize,
}

/// The last two digits of each number that a byte holds, in order: so no position in it is checked.
static PAIRS: [u8; 512] =
    *b"00010203040506070809101112131415161718192021222324252627282930313233343536373839404142434445464748495051525354555657585960616263646566676869707172737475767778798081828384858687888990919293949596979899000102030405060708091011121314151617181920212223242526272829303132333435363738394041424344454647484950515253545556575859606162636465666768697071727374757677787980818283848586878889909192939495969798990001020304050607080910111213141516171819202122232425262728293031323334353637383940414243444546474849505152535455";

/// The two digits of a number below 100.
#[inline]
#[must_use]
pub fn pair_of(number: u8) -> [u8; 2] {
    let position = usize::from(number) * 2;
    let mut pair = [0; 2];
    pair.copy_from_slice(&PAIRS[position..position + 2]);
    pair
}

/// The digits of a number that has four: the first two, and the last two.
#[inline]
#[must_use]
pub fn two_pairs(number: u32) -> ([u8; 2], [u8; 2]) {
    (pair_of((number / 100) as u8), pair_of((number % 100) as u8))
}

impl TextBuffer {
    /// An empty text.
    #[inline]
    #[must_use]
    pub const fn new() -> Self {
        TextBuffer {
            bytes: [0; 128],
            len: 0,
        }
    }

    /// Clears the text.
    #[cfg(feature = "inner")]
    pub fn clear(&mut self) {
        self.len = 0;
    }

    /// The text's bytes.
    #[inline]
    #[must_use]
    pub const fn as_bytes(&self) -> &[u8] {
        self.bytes.split_at(self.len).0
    }

    /// The text.
    #[inline]
    #[must_use]
    pub const fn as_str(&self) -> &str {
        crate::shim::text(self.as_bytes())
    }

    /// Appends an ASCII byte.
    #[inline]
    pub fn push(&mut self, byte: u8) {
        self.bytes[self.len] = byte;
        self.len += 1;
    }

    /// Appends a text.
    #[cfg(feature = "inner")]
    pub fn push_str(&mut self, text: &str) {
        let end = self.len + text.len();
        self.bytes[self.len..end].copy_from_slice(text.as_bytes());
        self.len = end;
    }

    /// Appends ASCII bytes.
    #[inline]
    pub fn push_ascii(&mut self, bytes: &[u8]) {
        let end = self.len + bytes.len();
        self.bytes[self.len..end].copy_from_slice(bytes);
        self.len = end;
    }

    /// Appends a number below 100 as two digits.
    #[inline]
    pub fn push_two_digits(&mut self, number: u8) {
        self.push_ascii(&pair_of(number));
    }

    /// Appends nanoseconds as nine digits.
    #[inline]
    pub fn push_nine_digits(&mut self, number: u32) {
        let high = number / 10_000;
        let low = number % 10_000;
        let first = b'0' + (high / 10_000) as u8;
        let (second, third) = (
            pair_of((high % 10_000 / 100) as u8),
            pair_of((high % 100) as u8),
        );
        let (fourth, fifth) = (pair_of((low / 100) as u8), pair_of((low % 100) as u8));
        self.push_ascii(&[
            first, second[0], second[1], third[0], third[1], fourth[0], fourth[1], fifth[0],
            fifth[1],
        ]);
    }

    /// Appends the digits of a number.
    pub fn push_digits(&mut self, number: u64) {
        if number < 10 {
            self.push(b'0' + number as u8);
        } else if number < 100 {
            self.push_two_digits(number as u8);
        } else {
            self.push_digits(number / 100);
            self.push_two_digits((number % 100) as u8);
        }
    }

    /// Appends the digits of a number, of which there are ten at most.
    #[allow(clippy::manual_range_contains)]
    #[inline]
    pub fn push_decimal(&mut self, number: u32) {
        if number >= 1000 && number < 10_000 {
            let (front, back) = two_pairs(number);
            self.push_ascii(&front);
            self.push_ascii(&back);
        } else {
            self.push_digits(u64::from(number));
        }
    }

    /// Appends the digits of a count, of which there are twenty at most.
    #[cfg(feature = "inner")]
    pub fn push_count(&mut self, count: u64) {
        self.push_digits(count);
    }
}
