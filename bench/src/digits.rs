//! Decimal numbers, eight bytes at a time.

/// A run of digits at the head of 8 bytes, and what follows it.
pub struct Run {
    pub value: u64,
    /// How many digits there are.
    pub length: usize,
    /// The byte after the digits.
    pub after: u8,
    /// At least one digit, and no leading zero. Where this is false, the other fields say nothing.
    pub fine: bool,
}

/// Up to 7 digits at the head of 8 bytes, the first byte in the lowest place.
#[inline(always)]
pub fn leading_run(bytes: u64) -> Run {
    // Bit 4 of a byte is set in every digit and clear in a line feed and in "/". The digits are checked below.
    let length = ((!bytes & 0x1010_1010_1010_1010).trailing_zeros() / 8) as usize;
    let inside = length.wrapping_sub(1) < 7;
    let shift = 8 * (length as u32 & 7);
    // The digits at the top, zeros below them.
    let digits = (bytes ^ 0x3030_3030_3030_3030).wrapping_shl(64 - shift);
    let all_digits = (digits | digits.wrapping_add(0x0606_0606_0606_0606)) & 0xf0f0_f0f0_f0f0_f0f0 == 0;
    let leading_zero = (bytes & 0xff == 0x30) & (length > 1);
    // Neighbouring digits, then pairs, then fours are joined.
    let pairs = digits.wrapping_mul(10).wrapping_add(digits >> 8) & 0x00ff_00ff_00ff_00ff;
    let fours = pairs.wrapping_mul(100).wrapping_add(pairs >> 16) & 0x0000_ffff_0000_ffff;
    let value = fours.wrapping_mul(10_000).wrapping_add(fours >> 32) & 0xffff_ffff;
    Run { value, length, after: (bytes >> shift) as u8, fine: inside & all_digits & !leading_zero }
}

/// A run of up to 4 digits at the head of 8 bytes, and what follows it.
#[inline(always)]
pub fn short_run(bytes: u64) -> Run {
    let byte = |place: usize| (bytes >> (8 * place)) as u8;
    let digit = |place: usize| (byte(place).wrapping_sub(b'0')) as u64;
    let first = digit(0);
    let leads = first.wrapping_sub(1) < 9;
    if digit(1) >= 10 {
        return Run { value: first, length: 1, after: byte(1), fine: first < 10 };
    }
    let two = 10 * first + digit(1);
    if digit(2) >= 10 {
        return Run { value: two, length: 2, after: byte(2), fine: leads };
    }
    let three = 10 * two + digit(2);
    if digit(3) >= 10 {
        return Run { value: three, length: 3, after: byte(3), fine: leads };
    }
    Run { value: 10 * three + digit(3), length: 4, after: byte(4), fine: leads }
}

/// A number of 1 to 4 digits that a line feed ends, at the head of 8 bytes, and how many digits it has.
#[inline(always)]
pub fn short_line(bytes: u64) -> Option<(u64, usize)> {
    let byte = |place: usize| (bytes >> (8 * place)) as u8;
    let digit = |place: usize| (byte(place).wrapping_sub(b'0')) as u64;
    let first = digit(0);
    let leads = first.wrapping_sub(1) < 9;
    let (right, value, length) = if byte(1) == b'\n' {
        (first < 10, first, 1)
    } else if byte(2) == b'\n' {
        (leads & (digit(1) < 10), 10 * first + digit(1), 2)
    } else if byte(3) == b'\n' {
        (leads & (digit(1) < 10) & (digit(2) < 10), 100 * first + 10 * digit(1) + digit(2), 3)
    } else {
        let all = leads & (digit(1) < 10) & (digit(2) < 10) & (digit(3) < 10) & (byte(4) == b'\n');
        (all, 1_000 * first + 100 * digit(1) + 10 * digit(2) + digit(3), 4)
    };
    right.then_some((value, length))
}

/// A number of any length, or none where the bytes are not one. What exceeds 32 bits is held at the largest.
pub fn number(digits: &[u8]) -> Option<u32> {
    if digits.is_empty() || (digits[0] == b'0' && digits.len() > 1) {
        return None;
    }
    let mut value = 0u32;
    for &byte in digits {
        let digit = byte.wrapping_sub(b'0');
        if digit > 9 {
            return None;
        }
        value = value.saturating_mul(10).saturating_add(digit as u32);
    }
    Some(value)
}

/// The eight digits of a number below 10^8, one a byte, the first in the lowest place.
#[inline(always)]
fn eight(number: u64) -> u64 {
    let fours = (number / 10_000) | ((number % 10_000) << 32);
    let hundreds = (fours.wrapping_mul(10_486) >> 20) & 0x0000_007f_0000_007f;
    let pairs = hundreds | ((fours - 100 * hundreds) << 16);
    let tens = (pairs.wrapping_mul(103) >> 10) & 0x000f_000f_000f_000f;
    tens | ((pairs - 10 * tens) << 8)
}

const ASCII: u64 = 0x3030_3030_3030_3030;
const EIGHT_DIGITS: u64 = 100_000_000;

/// Writes a number at a place and gives the place after it. Up to 7 bytes beyond it are overwritten.
#[inline(always)]
pub fn put(out: &mut [u8], at: usize, number: u64) -> usize {
    if number < EIGHT_DIGITS {
        put_first(out, at, number)
    } else if number < EIGHT_DIGITS * EIGHT_DIGITS {
        let at = put_first(out, at, number / EIGHT_DIGITS);
        put_eight(out, at, number % EIGHT_DIGITS)
    } else {
        let at = put_first(out, at, number / (EIGHT_DIGITS * EIGHT_DIGITS));
        let at = put_eight(out, at, number / EIGHT_DIGITS % EIGHT_DIGITS);
        put_eight(out, at, number % EIGHT_DIGITS)
    }
}

/// A number below 10^8 without leading zeros.
#[inline(always)]
fn put_first(out: &mut [u8], at: usize, number: u64) -> usize {
    let digits = eight(number);
    let zeros = (digits.trailing_zeros() / 8).min(7);
    out[at..at + 8].copy_from_slice(&((digits | ASCII) >> (8 * zeros)).to_le_bytes());
    at + 8 - zeros as usize
}

/// A number below 10^8 in eight digits.
#[inline(always)]
fn put_eight(out: &mut [u8], at: usize, number: u64) -> usize {
    out[at..at + 8].copy_from_slice(&(eight(number) | ASCII).to_le_bytes());
    at + 8
}
