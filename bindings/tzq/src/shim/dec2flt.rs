//! Digits of numbers.

/// The powers of ten up to the number of digits that are read at once.
const POWERS: [u64; 9] = [
    1,
    10,
    100,
    1_000,
    10_000,
    100_000,
    1_000_000,
    10_000_000,
    100_000_000,
];

/// The place after the digits from a place on, and a number with these digits after its own, modulo
/// 2^64.
#[inline(always)]
pub fn read_digits(bytes: &[u8], from: usize, number: u64) -> (usize, u64) {
    let (mut place, mut number) = (from, number);
    let mut rest = &bytes[from..];
    while let Some((eight, after)) = rest.split_first_chunk() {
        let (count, last) = digits_of_eight(u64::from_le_bytes(*eight));
        number = number.wrapping_mul(POWERS[count]).wrapping_add(last);
        place += count;
        if count < 8 {
            return (place, number);
        }
        rest = after;
    }
    for byte in rest {
        let digit = byte.wrapping_sub(b'0');
        if digit > 9 {
            break;
        }
        number = number.wrapping_mul(10).wrapping_add(u64::from(digit));
        place += 1;
    }
    (place, number)
}

/// How many of eight bytes are digits before any other byte, and the number of these digits. The
/// first byte is the lowest.
#[inline(always)]
fn digits_of_eight(bytes: u64) -> (usize, u64) {
    // Of a digit its value is left, and of any other byte 10 or more.
    let values = bytes ^ 0x3030_3030_3030_3030;
    // The highest bit of each byte that is 10 or more. No sum of seven bits and 0x76 reaches the
    // next byte.
    let others = (((values & 0x7f7f_7f7f_7f7f_7f7f) + 0x7676_7676_7676_7676) | values)
        & 0x8080_8080_8080_8080;
    if others == 0 {
        return (8, number_of_values(values));
    }
    let count = others.trailing_zeros() / 8;
    // Zeros come before the digits. A shift by 64 bits at once would be none.
    (
        count as usize,
        number_of_values(values << (56 - 8 * count) << 8),
    )
}

/// The number of eight digits, by their values: first of pairs, then of fours, then of all.
#[inline(always)]
fn number_of_values(values: u64) -> u64 {
    let pairs = values.wrapping_mul(10).wrapping_add(values >> 8) & 0x00ff_00ff_00ff_00ff;
    let fours = pairs.wrapping_mul(100).wrapping_add(pairs >> 16) & 0x0000_ffff_0000_ffff;
    fours.wrapping_mul(10_000).wrapping_add(fours >> 32) & 0xffff_ffff
}

#[cfg(test)]
mod tests {
    use super::read_digits;

    /// What `read_digits` returns, byte by byte.
    fn by_bytes(bytes: &[u8], from: usize, number: u64) -> (usize, u64) {
        let digits = bytes[from..]
            .iter()
            .take_while(|byte| byte.is_ascii_digit());
        let append = |(place, number): (usize, u64), digit: &u8| {
            (
                place + 1,
                number
                    .wrapping_mul(10)
                    .wrapping_add(u64::from(digit - b'0')),
            )
        };
        digits.fold((from, number), append)
    }

    #[test]
    fn digits_end_at_any_other_byte() {
        for other in 0..=u8::MAX {
            for len in 0..20 {
                for place in 0..len {
                    let mut bytes: Vec<u8> = (b'0'..=b'9').rev().cycle().take(len).collect();
                    bytes[place] = other;
                    for from in 0..=len {
                        assert_eq!(read_digits(&bytes, from, 0), by_bytes(&bytes, from, 0));
                    }
                }
            }
        }
    }

    #[test]
    fn digits_are_appended_modulo_2_to_the_64() {
        for byte in b'0'..=b'9' {
            for number in [0, 1, 9, 1_844_674_407_370_955_161, 1 << 63, u64::MAX] {
                for len in 0..40 {
                    let bytes = vec![byte; len];
                    assert_eq!(read_digits(&bytes, 0, number), by_bytes(&bytes, 0, number));
                }
            }
        }
    }
}
