//! The messages that are read and written.
use crate::codec::{self, Class, Field, Format, CHIP, CODES, CODE_LENGTHS, FORMATS, KEYS, KEY_LENGTHS, LARGEST};
use crate::library::Sale;
use crate::random::Random;

pub const TERMINAL: &[u8; 8] = b"LIB00001";
pub const MERCHANT: &[u8; 15] = b"WHISTLAUREL0001";
pub const BATCH: u32 = 1;
pub const SALE: Sale = Sale { amount: 12_000, card_number: 4_111_111_111_111_111, card_length: 16 };

/// What a reader brings for a sale: cryptogram and its data, issuer's data, a random number, counters and results, amount, date, currency.
pub const READER: &[u8] = b"\x9F\x26\x08CRYPTOGR\x9F\x27\x01\x80\x9F\x10\x07\x07\x01\x01\x03\xA0\x20\x02\x9F\x37\x04RAND\x9F\x36\x02\x00\x2A\
\x95\x05\x00\x00\x00\x08\x00\x9A\x03\x26\x11\x16\x9C\x01\x00\x9F\x02\x06\x00\x00\x00\x01\x20\x00\x5F\x2A\x02\x01\x56\x82\x02\x7C\x00\x9F\x1A\x02\x01\x56\
\x9F\x03\x06\x00\x00\x00\x00\x00\x00\x9F\x33\x03\xE0\xF9\xC8\x84\x08\xA0\x00\x00\x03\x33\x01\x01\x01";

/// Writes a sale from the numbers that the desk and the terminal hold, and gives its length; without a chip where its bytes are empty.
pub fn write_sale(sale: &Sale, chip: &[u8], trace: u32, out: &mut [u8]) -> Result<usize, u8> {
    let digits = usize::from(sale.card_length);
    let card = packed_card(sale);
    let (mut amount, mut trace_number, mut batch) = ([0; 6], [0; 3], [0; 3]);
    pack(sale.amount, &mut amount);
    pack(trace.into(), &mut trace_number);
    pack(BATCH.into(), &mut batch);
    let field60 = [0x22, batch[0], batch[1], batch[2], 0x00, 0x00, 0x01];
    let field = |number, count, contents| Field { number, count, contents };
    let mode = if chip.is_empty() { &[0x01, 0x20] } else { &[0x05, 0x20] };
    let mut fields = [
        field(2, digits, &card[..digits.div_ceil(2)]),
        field(3, 6, &[0; 3]),
        field(4, 12, &amount),
        field(11, 6, &trace_number),
        field(22, 3, mode),
        field(25, 2, &[0]),
        field(41, 8, TERMINAL),
        field(42, 15, MERCHANT),
        field(49, 3, b"156"),
        field(CHIP, chip.len(), chip),
        field(CODES, 14, &field60),
        field(64, 8, &[0; 8]),
    ];
    if chip.is_empty() {
        fields.copy_within(10.., 9);
        return codec::write(0x0200, &fields[..11], out);
    }
    codec::write(0x0200, &fields, out)
}

/// The sale of trace 1; without a chip where its bytes are empty.
pub fn sale(chip: &[u8]) -> Vec<u8> {
    let mut out = [0; LARGEST];
    let length = write_sale(&SALE, chip, 1, &mut out).expect("a sale is written");
    out[..length].to_vec()
}

/// The centre approves the sale of this trace.
pub fn approval(trace: u32, amount: u64) -> Vec<u8> {
    let texts = [
        (3, "000000".to_string()),
        (4, format!("{amount:012}")),
        (11, format!("{trace:06}")),
        (12, "101112".to_string()),
        (13, "1115".to_string()),
        (15, "1116".to_string()),
        (25, "00".to_string()),
        (32, "12345678".to_string()),
        (37, format!("{trace:012}")),
        (38, format!("{trace:06}")),
        (39, "00".to_string()),
        (41, String::from_utf8_lossy(TERMINAL).into()),
        (42, String::from_utf8_lossy(MERCHANT).into()),
        (49, "156".to_string()),
        (CODES, format!("22{BATCH:06}000001")),
        (64, "01234567".to_string()),
    ];
    built(0x0210, &texts.map(|(number, text)| (number, text.into_bytes())))
}

/// The terminal signs on, in this batch.
pub fn sign_on(trace: u32, batch: u32) -> Vec<u8> {
    built(0x0800, &sign_on_fields(trace, batch))
}

/// The centre takes the sign-on of this trace, and brings a batch number and so many bytes of keys.
pub fn signed_on(trace: u32, batch: u32, keys: usize) -> Vec<u8> {
    let mut fields = sign_on_fields(trace, batch);
    fields.insert(1, (39, b"00".to_vec()));
    fields.push((KEYS, (0..keys).map(|place| (place * 7) as u8).collect()));
    built(0x0810, &fields)
}

fn sign_on_fields(trace: u32, batch: u32) -> Vec<(u8, Vec<u8>)> {
    let field60 = format!("00{batch:06}003").into_bytes();
    vec![(11, format!("{trace:06}").into_bytes()), (41, TERMINAL.to_vec()), (42, MERCHANT.to_vec()), (CODES, field60)]
}

/// Field 62 alone, with so many bytes, of any length below 10,000.
pub fn keys(count: usize) -> Vec<u8> {
    let mut bytes = vec![0x08, 0x10];
    bytes.extend_from_slice(&codec::bit(KEYS).to_be_bytes());
    let mut length = [0; 2];
    pack(count as u64, &mut length);
    bytes.extend_from_slice(&length);
    bytes.resize(12 + count, 0xA5);
    bytes
}

/// The centre's totals differ from those of the settlement of this trace, and it asks for the upload.
pub fn difference(trace: u32) -> Vec<u8> {
    let texts = [
        (11, format!("{trace:06}")),
        (41, String::from_utf8_lossy(TERMINAL).into()),
        (42, String::from_utf8_lossy(MERCHANT).into()),
        (48, format!("{:030}2{:031}", 0, 0)),
        (CODES, format!("00{BATCH:06}201")),
    ];
    built(0x0510, &texts.map(|(number, text)| (number, text.into_bytes())))
}

/// Every field at its longest.
pub fn largest() -> Vec<u8> {
    let fields: Vec<_> = FORMATS.iter().map(|f| (f.number, filled(f, usize::from(f.most), &mut |i| i * 7))).collect();
    built(0x0210, &fields)
}

/// A well-formed message with about half of the fields.
pub fn any(random: &mut Random) -> Vec<u8> {
    let mut fields = Vec::new();
    for format in &FORMATS {
        if random.below(2) == 0 {
            let count = match format.number {
                CODES => CODE_LENGTHS[random.below(CODE_LENGTHS.len())],
                KEYS => KEY_LENGTHS[random.below(KEY_LENGTHS.len())],
                _ => usize::from(format.least) + random.below(usize::from(format.most - format.least) + 1),
            };
            fields.push((format.number, filled(format, count, &mut |_| random.below(256))));
        }
    }
    built(codec::TYPES[random.below(codec::TYPES.len())], &fields)
}

/// Fills bytes with a number's last digits, packed.
fn pack(number: u64, out: &mut [u8]) {
    let mut left = number;
    for byte in out.iter_mut().rev() {
        *byte = (left / 10 % 10 * 16 + left % 10) as u8;
        left /= 100;
    }
}

/// The digits of a card from the left, zeros after the last.
fn packed_card(sale: &Sale) -> [u8; 10] {
    let mut card = [0; 10];
    let pairs = usize::from(sale.card_length / 2);
    if sale.card_length % 2 == 0 {
        pack(sale.card_number, &mut card[..pairs]);
    } else {
        pack(sale.card_number / 10, &mut card[..pairs]);
        card[pairs] = (sale.card_number % 10 * 16) as u8;
    }
    card
}

/// Elements in form, so many bytes in all, two at least, by numbers for their places. Every third tag has two bytes.
pub fn chip(count: usize, number: &mut dyn FnMut(usize) -> usize) -> Vec<u8> {
    let mut out = Vec::new();
    while out.len() < count {
        let (place, left) = (out.len(), count - out.len());
        let first = place / 2 + place / 62;
        let tag: &[u8] = if place % 3 == 0 && left > 2 { &[0x9F, place as u8] } else { &[first as u8] };
        let room = left - tag.len() - 1;
        let long = room > 0x80 && number(place) % 2 == 0;
        let most = if long { room - 1 } else { room.min(0x7F) };
        let mut value = if long { most } else { number(place) % (most + 1) };
        if room - usize::from(long) - value == 1 {
            value = if value < most { value + 1 } else { value - 1 };
        }
        out.extend_from_slice(tag);
        out.extend_from_slice(if value > 0x7F { &[0x81] } else { &[] });
        out.push(value as u8);
        out.extend((0..value).map(|at| number(at) as u8));
    }
    out
}

/// The text of a field, as its class allows, by numbers for its places.
fn filled(format: &Format, count: usize, number: &mut dyn FnMut(usize) -> usize) -> Vec<u8> {
    if format.number == CHIP {
        return chip(count.max(2), number);
    }
    let symbol = |x: usize| match format.class {
        Class::Digits => b'0' + (x % 10) as u8,
        Class::Printable => b' ' + (x % 95) as u8,
        Class::Bytes => x as u8,
    };
    (0..count).map(|place| symbol(number(place))).collect()
}

/// A message of these fields; digits are given as text.
fn built(message_type: u16, texts: &[(u8, Vec<u8>)]) -> Vec<u8> {
    let is_digits = |number| FORMATS.iter().any(|f| f.number == number && f.class == Class::Digits);
    let contents: Vec<Vec<u8>> =
        texts.iter().map(|(number, text)| if is_digits(*number) { packed(text) } else { text.clone() }).collect();
    let fields: Vec<Field> = texts
        .iter()
        .zip(&contents)
        .map(|((number, text), contents)| Field { number: *number, count: text.len(), contents })
        .collect();
    let mut out = [0; LARGEST];
    let length = codec::write(message_type, &fields, &mut out).expect("a message is written");
    out[..length].to_vec()
}

fn packed(digits: &[u8]) -> Vec<u8> {
    digits.chunks(2).map(|two| (two[0] - b'0') * 16 + two.get(1).map_or(0, |digit| digit - b'0')).collect()
}

#[cfg(test)]
mod tests {
    use super::*;
    use crate::elements;

    #[test]
    fn a_sale_is_that_of_the_documents() {
        let sale = sale(&[]);
        assert_eq!(sale.len(), 77);
        assert_eq!(sale[..10], [0x02, 0x00, 0x70, 0x20, 0x04, 0x80, 0x00, 0xC0, 0x80, 0x11]);
        assert_eq!(sale[22..28], [0x00, 0x00, 0x00, 0x01, 0x20, 0x00]);
        assert_eq!(sale[31..33], [0x01, 0x20]);
        assert_eq!(sale[60..69], [0x00, 0x14, 0x22, 0x00, 0x00, 0x01, 0x00, 0x00, 0x01]);
    }

    #[test]
    fn samples_read() {
        let mut random = Random::new();
        assert_eq!(largest().len(), LARGEST);
        let sign_ons = [sign_on(9, 1), signed_on(9, 1, 24)];
        assert_eq!(sign_ons.each_ref().map(Vec::len), [44, 72]);
        let samples = [sale(&[]), sale(READER), approval(7, 12_000), difference(8), largest()];
        assert!(samples.iter().chain(&sign_ons).all(|m| codec::read(m).is_ok()));
        for count in 0..10_000 {
            let number = if KEY_LENGTHS.contains(&count) { None } else { Some(24) };
            assert_eq!(codec::read(&keys(count)).err(), number, "{count} bytes");
        }
        assert!((0..1_000).all(|_| codec::read(&any(&mut random)).is_ok()));
        for count in 2..=255 {
            let made = chip(count, &mut |_| random.below(256));
            assert_eq!((made.len(), elements::in_form(&made)), (count, true), "{made:02X?}");
        }
    }
}
