//! A hand-written codec without copies: a message read is the type, the bitmap and where the contents of each field stand in the bytes.
//! Refusals have the numbers of the library: 3 to 9, 23 and 24 at reading; 1, 4 to 8, 23 and 24 at writing.
use crate::elements;
use std::ops::Range;

#[derive(Clone, Copy, PartialEq)]
pub enum Class {
    Digits,
    Printable,
    Bytes,
}
use Class::{Bytes, Digits, Printable};

/// A row of the table of fields. The prefix is the bytes of the length, 0 for a field of one length. The lengths of CODES are CODE_LENGTHS,
/// those of KEYS KEY_LENGTHS.
pub struct Format {
    pub number: u8,
    pub class: Class,
    prefix: u8,
    pub least: u8,
    pub most: u8,
}

/// The contents of a field as on the wire, without their length; count is in digits or bytes.
#[derive(Clone, Copy, Debug, PartialEq)]
pub struct Field<'a> {
    pub number: u8,
    pub count: usize,
    pub contents: &'a [u8],
}

#[derive(Clone, Copy, Default)]
struct Span {
    start: u16,
    count: u16,
}

/// A message that was read.
pub struct View {
    pub message_type: u16,
    bitmap: u64,
    spans: [Span; ROWS],
}

const ROWS: usize = 26;

/// The smallest buffer that a message is written to: the longest message.
pub const LARGEST: usize = 614;

/// The field whose elements are judged after all else.
pub const CHIP: u8 = 55;

/// The field of kind, batch and codes, and the lengths that it may have.
pub const CODES: u8 = 60;
pub const CODE_LENGTHS: [usize; 2] = [11, 14];

/// The field whose length is judged after that, and the lengths that it may have.
pub const KEYS: u8 = 62;
pub const KEY_LENGTHS: [usize; 5] = [24, 40, 56, 60, 84];

pub const TYPES: [u16; 14] =
    [0x0100, 0x0110, 0x0200, 0x0210, 0x0220, 0x0230, 0x0320, 0x0330, 0x0400, 0x0410, 0x0500, 0x0510, 0x0800, 0x0810];

pub const FORMATS: [Format; ROWS] = [
    row(2, Digits, 1, 13, 19),
    row(3, Digits, 0, 6, 6),
    row(4, Digits, 0, 12, 12),
    row(11, Digits, 0, 6, 6),
    row(12, Digits, 0, 6, 6),
    row(13, Digits, 0, 4, 4),
    row(14, Digits, 0, 4, 4),
    row(15, Digits, 0, 4, 4),
    row(22, Digits, 0, 3, 3),
    row(25, Digits, 0, 2, 2),
    row(32, Digits, 1, 1, 11),
    row(37, Printable, 0, 12, 12),
    row(38, Printable, 0, 6, 6),
    row(39, Printable, 0, 2, 2),
    row(41, Printable, 0, 8, 8),
    row(42, Printable, 0, 15, 15),
    row(44, Bytes, 1, 0, 25),
    row(48, Digits, 2, 62, 62),
    row(49, Printable, 0, 3, 3),
    row(54, Printable, 2, 20, 20),
    row(CHIP, Bytes, 2, 1, 255),
    row(CODES, Digits, 2, 11, 14),
    row(61, Digits, 2, 16, 16),
    row(KEYS, Bytes, 2, 24, 84),
    row(63, Bytes, 2, 3, 63),
    row(64, Bytes, 0, 8, 8),
];

/// Reads a message, or gives the number by which it is refused. Always inlined: it is faster so, and left to the compiler that would
/// change with the number of callers.
#[inline(always)]
pub fn read(bytes: &[u8]) -> Result<View, u8> {
    let (message_type, bitmap) = head(bytes)?;
    let mut view = View { message_type, bitmap, spans: [Span::default(); ROWS] };
    let mut at = 10;
    let mut left = bitmap;
    while left != 0 {
        let number = left.leading_zeros() + 1;
        left &= !bit(number as u8);
        let place = usize::from(PLACES[number as usize]);
        if place >= ROWS {
            return Err(5);
        }
        let format = &FORMATS[place];
        let count = length(format, &bytes[at..])?;
        at += usize::from(format.prefix);
        let end = at + size(format.class, count);
        let contents = bytes.get(at..end).ok_or(3)?;
        judge(format.class, count, contents)?;
        view.spans[place] = Span { start: at as u16, count: count as u16 };
        at = end;
    }
    if at < bytes.len() {
        return Err(9);
    }
    if view.field(CHIP, bytes).is_some_and(|field| !elements::in_form(field.contents)) {
        return Err(23);
    }
    if view.field(KEYS, bytes).is_some_and(|field| !KEY_LENGTHS.contains(&field.count)) {
        return Err(24);
    }
    Ok(view)
}

/// Writes a message to the front of a buffer and gives its length, or the number by which it is refused. Fields ascend.
pub fn write(message_type: u16, fields: &[Field], out: &mut [u8]) -> Result<usize, u8> {
    if out.len() < LARGEST {
        return Err(1);
    }
    let bitmap = judge_all(message_type, fields)?;
    out[..2].copy_from_slice(&message_type.to_be_bytes());
    out[2..10].copy_from_slice(&bitmap.to_be_bytes());
    let mut at = 10;
    for field in fields {
        let format = &FORMATS[usize::from(PLACES[usize::from(field.number)])];
        at += put_length(format, field.count, &mut out[at..]);
        let end = at + field.contents.len();
        out[at..end].copy_from_slice(field.contents);
        at = end;
    }
    Ok(at)
}

impl View {
    /// A field of the message that was read from these bytes.
    #[inline]
    pub fn field<'a>(&self, number: u8, bytes: &'a [u8]) -> Option<Field<'a>> {
        let contents = self.place(number)?;
        let count = usize::from(self.spans[usize::from(PLACES[usize::from(number)])].count);
        Some(Field { number, count, contents: &bytes[contents] })
    }

    /// Where the contents of a field stand.
    #[inline]
    pub fn place(&self, number: u8) -> Option<Range<usize>> {
        if number == 0 || number > 64 || self.bitmap & bit(number) == 0 {
            return None;
        }
        let row = usize::from(PLACES[usize::from(number)]);
        let (start, count) = (usize::from(self.spans[row].start), usize::from(self.spans[row].count));
        Some(start..start + size(FORMATS[row].class, count))
    }
}

/// Whether bytes are packed digits, so many of them, an odd count filled by zero. There are just the bytes for them.
#[inline]
pub fn are_digits(bytes: &[u8], count: usize) -> bool {
    let mut good = true;
    for &byte in bytes {
        good &= byte < 0xA0 && byte & 15 <= 9;
    }
    good && (count % 2 == 0 || bytes.last().map_or(true, |byte| byte & 15 == 0))
}

#[inline]
pub fn are_printable(bytes: &[u8]) -> bool {
    let mut good = true;
    for &byte in bytes {
        good &= (0x20..=0x7E).contains(&byte);
    }
    good
}

const fn row(number: u8, class: Class, prefix: u8, least: u8, most: u8) -> Format {
    Format { number, class, prefix, least, most }
}

/// Field 1 is the top bit of the bitmap.
pub const fn bit(number: u8) -> u64 {
    1 << (64 - number as u32)
}

/// The bits of the fields in the table.
pub const LISTED: u64 = {
    let mut bits = 0;
    let mut place = 0;
    while place < ROWS {
        bits |= bit(FORMATS[place].number);
        place += 1;
    }
    bits
};

/// The place in the table of each field number, 255 for none.
const PLACES: [u8; 65] = {
    let mut places = [255; 65];
    let mut place = 0;
    while place < ROWS {
        places[FORMATS[place].number as usize] = place as u8;
        place += 1;
    }
    places
};

#[inline]
fn head(bytes: &[u8]) -> Result<(u16, u64), u8> {
    if bytes.len() < 10 {
        return Err(3);
    }
    let message_type = u16::from_be_bytes([bytes[0], bytes[1]]);
    if !is_listed(message_type) {
        return Err(4);
    }
    let bitmap = u64::from_be_bytes(bytes[2..10].try_into().unwrap());
    if bitmap & !LISTED != 0 {
        return Err(5);
    }
    Ok((message_type, bitmap))
}

#[inline]
fn is_listed(message_type: u16) -> bool {
    matches!(
        message_type,
        0x0100
            | 0x0110
            | 0x0200
            | 0x0210
            | 0x0220
            | 0x0230
            | 0x0320
            | 0x0330
            | 0x0400
            | 0x0410
            | 0x0500
            | 0x0510
            | 0x0800
            | 0x0810
    )
}

/// The length of a field that begins these bytes.
#[inline]
fn length(format: &Format, bytes: &[u8]) -> Result<usize, u8> {
    if format.prefix == 0 {
        return Ok(usize::from(format.most));
    }
    let prefix = bytes.get(..usize::from(format.prefix)).ok_or(3)?;
    if !are_digits(prefix, 2 * prefix.len()) {
        return Err(6);
    }
    let count = prefix.iter().fold(0, |sum, byte| sum * 100 + usize::from(byte >> 4) * 10 + usize::from(byte & 15));
    if !is_allowed(format, count) {
        return Err(7);
    }
    Ok(count)
}

/// Whether a length is allowed, as far as 7 is concerned.
#[inline]
fn is_allowed(format: &Format, count: usize) -> bool {
    match format.number {
        KEYS => true,
        CODES => CODE_LENGTHS.contains(&count),
        _ => (usize::from(format.least)..=usize::from(format.most)).contains(&count),
    }
}

/// The bytes of so many digits or bytes.
#[inline]
fn size(class: Class, count: usize) -> usize {
    if class == Digits {
        count.div_ceil(2)
    } else {
        count
    }
}

#[inline]
fn judge(class: Class, count: usize, contents: &[u8]) -> Result<(), u8> {
    match class {
        Digits if !are_digits(contents, count) => Err(6),
        Printable if !are_printable(contents) => Err(8),
        _ => Ok(()),
    }
}

/// The bitmap of a message that may be written.
#[inline]
fn judge_all(message_type: u16, fields: &[Field]) -> Result<u64, u8> {
    if !is_listed(message_type) {
        return Err(4);
    }
    let mut bitmap = 0;
    let mut last = 0;
    for field in fields {
        if field.number <= last || field.number > 64 || LISTED & bit(field.number) == 0 {
            return Err(5);
        }
        last = field.number;
        bitmap |= bit(field.number);
    }
    for field in fields {
        let format = &FORMATS[usize::from(PLACES[usize::from(field.number)])];
        if !is_allowed(format, field.count) || field.contents.len() != size(format.class, field.count) {
            return Err(7);
        }
        judge(format.class, field.count, field.contents)?;
    }
    if fields.iter().any(|field| field.number == CHIP && !elements::in_form(field.contents)) {
        return Err(23);
    }
    if fields.iter().any(|field| field.number == KEYS && !KEY_LENGTHS.contains(&field.count)) {
        return Err(24);
    }
    Ok(bitmap)
}

/// Puts the length of a field, and gives the bytes that it takes.
#[inline]
fn put_length(format: &Format, count: usize, out: &mut [u8]) -> usize {
    let packed = |two: usize| (two / 10 * 16 + two % 10) as u8;
    match format.prefix {
        0 => {}
        1 => out[0] = packed(count),
        _ => {
            out[0] = packed(count / 100);
            out[1] = packed(count % 100);
        }
    }
    usize::from(format.prefix)
}

#[cfg(test)]
mod tests {
    use super::*;

    const HEAD: [u8; 10] = [0x02, 0x00, 0, 0, 0, 0, 0, 0, 0, 0];

    /// An 0200 of one field, whose bytes are these.
    fn one(number: u8, rest: &[u8]) -> Vec<u8> {
        let mut bytes = HEAD.to_vec();
        bytes[2..10].copy_from_slice(&bit(number).to_be_bytes());
        bytes.extend_from_slice(rest);
        bytes
    }

    fn refusal(bytes: &[u8]) -> u8 {
        read(bytes).err().unwrap_or(0)
    }

    #[test]
    fn the_table_makes_614_bytes() {
        let fields: usize = FORMATS.iter().map(|f| usize::from(f.prefix) + size(f.class, usize::from(f.most))).sum();
        assert_eq!(10 + fields, LARGEST);
        assert!(TYPES.iter().all(|&x| is_listed(x)));
        assert_eq!((0..=u16::MAX).filter(|&x| is_listed(x)).count(), TYPES.len());
    }

    #[test]
    fn heads() {
        assert_eq!(refusal(&HEAD), 0);
        assert_eq!(refusal(&HEAD[..9]), 3);
        assert_eq!(refusal(&[0x02, 0x01, 0x80, 0, 0, 0, 0, 0, 0, 0]), 4);
        assert_eq!(refusal(&one(1, &[])), 5);
        assert_eq!(refusal(&one(3, &[0; 4])), 9);
    }

    #[test]
    fn lengths_before_contents() {
        assert_eq!(refusal(&one(32, &[])), 3);
        assert_eq!(refusal(&one(32, &[0x0A])), 6);
        assert_eq!(refusal(&one(32, &[0x00])), 7);
        assert_eq!(refusal(&one(32, &[0x12])), 7);
        assert_eq!(refusal(&one(32, &[0x03, 0xAA])), 3);
        assert_eq!(refusal(&one(32, &[0x03, 0x12, 0x31])), 6);
        assert_eq!(refusal(&one(32, &[0x03, 0x12, 0x30])), 0);
        assert_eq!(refusal(&one(48, &[0x00])), 3);
        assert_eq!(refusal(&one(48, &[0x10, 0x62])), 7);
        assert_eq!(refusal(&one(44, &[0x00])), 0);
    }

    #[test]
    fn codes_and_balances() {
        for (length, bytes, number) in [(0x10, 5, 7), (0x11, 6, 0), (0x12, 6, 7), (0x13, 7, 7), (0x14, 7, 0), (0x15, 8, 7)] {
            assert_eq!(refusal(&one(CODES, &[&[0, length][..], &vec![0; bytes]].concat())), number);
        }
        assert_eq!(refusal(&one(CODES, &[0x00, 0x11, 0, 0, 0, 0, 0, 0x01])), 6);
        for (length, count, number) in [(0x19, 19, 7), (0x20, 20, 0), (0x21, 21, 7)] {
            assert_eq!(refusal(&one(54, &[&[0, length][..], &vec![b'C'; count]].concat())), number);
        }
        assert_eq!(refusal(&one(54, &[&[0, 0x20][..], &[0x1F; 20]].concat())), 8);
    }

    #[test]
    fn contents() {
        assert_eq!(refusal(&one(3, &[0, 0])), 3);
        assert_eq!(refusal(&one(3, &[0, 0xA0, 0])), 6);
        assert_eq!(refusal(&one(22, &[0x01, 0x20])), 0);
        assert_eq!(refusal(&one(22, &[0x01, 0x21])), 6);
        assert_eq!(refusal(&one(39, b"0\x7F")), 8);
        assert_eq!(refusal(&one(39, b" ~")), 0);
        assert_eq!(refusal(&one(64, &[0xFF; 8])), 0);
    }

    #[test]
    fn chips() {
        assert_eq!(refusal(&one(CHIP, &[0x00, 0x00])), 7);
        assert_eq!(refusal(&one(CHIP, &[0x02, 0x56])), 7);
        assert_eq!(refusal(&one(CHIP, &[0x00, 0x02, 0x82])), 3);
        assert_eq!(refusal(&one(CHIP, &[0x00, 0x01, 0x82])), 23);
        assert_eq!(refusal(&one(CHIP, &[0x00, 0x01, 0x82, 0x00])), 9);
        assert_eq!(refusal(&one(CHIP, &[0x00, 0x02, 0x82, 0x00])), 0);
        let cut = Field { number: CHIP, count: 1, contents: &[0x82] };
        let printable = Field { number: 39, count: 2, contents: b"0\n" };
        assert_eq!(write(0x0200, &[cut], &mut [0; LARGEST]), Err(23));
        assert_eq!(write(0x0200, &[printable, cut], &mut [0; LARGEST]), Err(8));
        assert_eq!(write(0x0200, &[Field { count: 0, contents: &[], ..cut }], &mut [0; LARGEST]), Err(7));
    }

    #[test]
    fn keys() {
        for (length, count, number) in [(0x24, 24, 0), (0x25, 25, 24), (0x84, 84, 0), (0x85, 85, 24), (0, 0, 24)] {
            let rest = [&[0, length][..], &vec![0xA5; count]].concat();
            assert_eq!(refusal(&one(KEYS, &rest)), number);
            assert_eq!(refusal(&one(KEYS, &rest[..1 + count])), 3);
            assert_eq!(refusal(&one(KEYS, &[&rest, &[0][..]].concat())), 9);
        }
        assert_eq!(refusal(&one(KEYS, &[0x00, 0x2A])), 6);
        assert_eq!(refusal(&one(KEYS, &[0x99, 0x99])), 3);
        let cut = Field { number: CHIP, count: 1, contents: &[0x82] };
        let short = Field { number: KEYS, count: 23, contents: &[0; 23] };
        let last = Field { number: 63, count: 2, contents: &[0; 2] };
        assert_eq!(write(0x0800, &[short], &mut [0; LARGEST]), Err(24));
        assert_eq!(write(0x0800, &[cut, short], &mut [0; LARGEST]), Err(23));
        assert_eq!(write(0x0800, &[short, last], &mut [0; LARGEST]), Err(7));
        assert_eq!(write(0x0800, &[Field { count: 24, contents: &[0; 24], ..short }], &mut [0; LARGEST]), Ok(36));
    }

    #[test]
    fn writing() {
        let card = Field { number: 2, count: 13, contents: &[0x12, 0x34, 0x56, 0x78, 0x90, 0x12, 0x30] };
        let unlisted = Field { number: 5, ..card };
        let too_long = Field { count: 15, ..card };
        let printable = Field { number: 39, count: 2, contents: b"0\n" };
        let mut out = [0xEE; LARGEST];
        assert_eq!(write(0x0200, &[card], &mut out[..LARGEST - 1]), Err(1));
        assert_eq!(write(0x0201, &[unlisted], &mut out), Err(4));
        assert_eq!(write(0x0200, &[too_long, unlisted], &mut out), Err(5));
        assert_eq!(write(0x0200, &[card, card], &mut out), Err(5));
        assert_eq!(write(0x0200, &[too_long], &mut out), Err(7));
        assert_eq!(write(0x0200, &[card, printable], &mut out), Err(8));
        assert_eq!(out, [0xEE; LARGEST]);
        assert_eq!(write(0x0200, &[card], &mut out), Ok(18));
        assert_eq!(out[..12], [0x02, 0, 0x40, 0, 0, 0, 0, 0, 0, 0, 0x13, 0x12]);
        assert_eq!(read(&out[..18]).ok().unwrap().field(2, &out), Some(card));
    }
}
