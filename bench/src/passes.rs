//! Plain passes over what a terminal holds: the measure of the calls.
use crate::codec::{are_digits, are_printable};
use crate::library::ENTRY_SIZE;

/// Reads each byte of the entries once: judges their form, and gives the debit and the credit amount.
pub fn over_journal(journal: &[u8], entries: usize) -> Option<(u64, u64)> {
    let (mut debit, mut credit) = (0, 0);
    for entry in journal.chunks_exact(ENTRY_SIZE).take(entries) {
        let digits = usize::from(entry[13]);
        if entry[1] > 1 || entry[2] > 4 || entry[3] > 9 || !(13..=19).contains(&digits) {
            return None;
        }
        let trace = number(&entry[4..7])?;
        let amount = number(&entry[7..13])?;
        if trace == 0 || amount == 0 || amount > 9_999_999_999 {
            return None;
        }
        let (card, filler) = entry[14..24].split_at(digits.div_ceil(2));
        if !are_digits(card, digits) || filler.iter().any(|&byte| byte != 0) || !are_digits(&entry[24..26], 4) {
            return None;
        }
        if !are_printable(&entry[26..44]) || entry[44..48] != [0; 4] {
            return None;
        }
        match entry[0] {
            20 | 22 => debit += amount,
            21 | 23 | 25 => credit += amount,
            10 | 11 => {}
            _ => return None,
        }
    }
    Some((debit, credit))
}

/// Reads each byte of an image once, eight of them as a number, and gives the sum.
pub fn over_image(image: &[u8]) -> u64 {
    let number = |bytes: &[u8]| bytes.iter().fold(0, |sum, &byte| sum << 8 | u64::from(byte));
    image.chunks(8).fold(0, |sum: u64, bytes| sum.wrapping_add(number(bytes)))
}

/// The number that packed digits say.
fn number(bytes: &[u8]) -> Option<u64> {
    let mut sum = 0;
    for byte in bytes {
        let (high, low) = (byte >> 4, byte & 15);
        if high > 9 || low > 9 {
            return None;
        }
        sum = sum * 100 + u64::from(high) * 10 + u64::from(low);
    }
    Some(sum)
}
