//! Holds codec and passes against the library before anything is timed.
use crate::codec::{self, KEYS, KEY_LENGTHS, LARGEST, LISTED, TYPES};
use crate::library::{self, Sale, Terminal, ABSENT, ENTRY_SIZE, IMAGE_SIZE, MESSAGE_SIZE, MOST_ENTRIES, QUIET, SENDS};
use crate::messages;
use crate::passes;
use crate::random::Random;
use crate::terminals::{self, Order};

const RANDOM_MESSAGES: usize = 20_000;
const SALES: usize = 1_000;
const REFUSALS: [usize; 9] = [3, 4, 5, 6, 7, 8, 9, 23, 24];

/// How many messages were read, by the number that both gave (0 for a well-formed one).
#[derive(Default)]
struct Readings([usize; 25]);

/// Compares; says what agreed, or the first difference.
pub fn run() -> Result<String, String> {
    same(|| "sizes".to_string(), library::sizes(), [IMAGE_SIZE, MESSAGE_SIZE, ENTRY_SIZE])?;
    let mut readings = Readings::default();
    let sales = [messages::sale(&[]), messages::sale(messages::READER)];
    let sign_ons = [messages::sign_on(1, messages::BATCH), messages::signed_on(1, messages::BATCH, 24)];
    let others = [messages::approval(1, messages::SALE.amount), messages::largest()];
    for message in sales.iter().chain(&sign_ons).chain(&others) {
        compare_neighbours(message, &mut readings)?;
    }
    compare_keys(&mut readings)?;
    let mut random = Random::new();
    for _ in 0..RANDOM_MESSAGES {
        let message = messages::any(&mut random);
        readings.compare(&message)?;
        compare_fields(&message)?;
        let altered = altered(message, &mut random);
        readings.compare(&altered)?;
        compare_fields(&altered)?;
        readings.compare(&noise(&mut random))?;
    }
    compare_sign_ons()?;
    compare_sales(&mut random)?;
    compare_totals()?;
    readings.summary()
}

impl Readings {
    fn compare(&mut self, bytes: &[u8]) -> Result<(), String> {
        let number = codec::read(bytes).err().unwrap_or(0);
        same(|| format!("reading {}", hexadecimal(bytes)), library::read(bytes), number)?;
        self.0[usize::from(number)] += 1;
        Ok(())
    }

    fn summary(&self) -> Result<String, String> {
        if let Some(number) = REFUSALS.iter().find(|&&number| self.0[number] == 0) {
            return Err(format!("no message was refused by {number}"));
        }
        let refused: Vec<String> = REFUSALS.iter().map(|&number| format!("{} by {number}", self.0[number])).collect();
        Ok(format!(
            "Codec and library agree on {} messages: {} well-formed; refused {}.",
            self.0.iter().sum::<usize>(),
            self.0[0],
            refused.join(", ")
        ))
    }
}

/// The message, each of its fronts, itself with bytes after it, and every change of one byte.
fn compare_neighbours(message: &[u8], readings: &mut Readings) -> Result<(), String> {
    for end in 0..=message.len() {
        readings.compare(&message[..end])?;
    }
    for more in 1..=LARGEST {
        readings.compare(&[message, &vec![0; more]].concat())?;
    }
    let mut changed = message.to_vec();
    for place in 0..message.len() {
        for byte in 0..=255 {
            changed[place] = byte;
            readings.compare(&changed)?;
        }
        changed[place] = message[place];
    }
    Ok(())
}

/// Field 62 of every length, alone, with a byte missing and with one more.
fn compare_keys(readings: &mut Readings) -> Result<(), String> {
    for count in 0..10_000 {
        let message = messages::keys(count);
        readings.compare(&message)?;
        readings.compare(&message[..message.len() - 1])?;
        readings.compare(&[&message, &[0][..]].concat())?;
    }
    Ok(())
}

/// Each field of a message, and that what was read is written again as the same bytes.
fn compare_fields(bytes: &[u8]) -> Result<(), String> {
    let read = codec::read(bytes);
    let mut fields = Vec::new();
    for number in 0..=255 {
        let found = read.as_ref().map(|view| view.field(number, bytes));
        let mut out = [0; LARGEST];
        let (result, count) = library::field(bytes, number, &mut out);
        let expected = match found {
            Err(refusal) => (*refusal, 0, &[][..]),
            Ok(None) => (ABSENT, 0, &[][..]),
            Ok(Some(field)) => (QUIET, field.count, field.contents),
        };
        let got = (result, count, &out[..expected.2.len()]);
        same(|| format!("field {number} of {}", hexadecimal(bytes)), got, expected)?;
        fields.extend(found.ok().flatten());
    }
    if let Ok(view) = read {
        let mut out = [0; LARGEST];
        let length = codec::write(view.message_type, &fields, &mut out);
        same(|| "what was read is written".to_string(), length.map(|end| &out[..end]), Ok(bytes))?;
    }
    Ok(())
}

/// The sign-on of a fresh terminal as the codec writes it, and that the batch number which its answer brings is that of the next sign-on.
fn compare_sign_ons() -> Result<(), String> {
    for (batch, keys) in [1, 7, 345, 999_998, 999_999].into_iter().zip(KEY_LENGTHS) {
        let mut terminal = Terminal::fresh(1, messages::TERMINAL, messages::MERCHANT);
        let what = || format!("sign-on, batch {batch}");
        for (trace, before) in [(1, 1), (2, batch)] {
            same(what, terminal.sign_on(), SENDS)?;
            same(what, terminal.sent(), &messages::sign_on(trace, before))?;
            same(what, terminal.answer(&messages::signed_on(trace, batch, keys)), QUIET)?;
        }
    }
    Ok(())
}

/// Sales of many amounts, cards and chips, half of them without one, as start writes them and as the codec does.
fn compare_sales(random: &mut Random) -> Result<(), String> {
    for _ in 0..SALES {
        let card_length = 13 + random.below(7) as u8;
        let sale = Sale {
            amount: 1 + random.below(9_999_999_999) as u64,
            card_number: random.below(10usize.pow(u32::from(card_length))) as u64,
            card_length,
        };
        let mut chip = match random.below(2) {
            0 => Vec::new(),
            _ => messages::chip(2 + random.below(254), &mut |_| random.below(256)),
        };
        if random.below(4) == 0 && !chip.is_empty() {
            let place = random.below(chip.len());
            chip[place] = random.below(256) as u8;
        }
        compare_sale(&sale, &chip)?;
    }
    Ok(())
}

fn compare_sale(sale: &Sale, chip: &[u8]) -> Result<(), String> {
    let mut terminal = terminals::empty(1);
    let mut out = [0; LARGEST];
    let written = messages::write_sale(sale, chip, terminals::FIRST, &mut out);
    let what = || format!("{sale:?} with chip {}", hexadecimal(chip));
    same(what, terminal.start(sale, chip), written.err().unwrap_or(SENDS))?;
    same(what, terminal.sent(), &out[..written.unwrap_or(0)])
}

/// The totals of a full journal, as the image has them and as the plain pass over the entries does.
fn compare_totals() -> Result<(), String> {
    for order in [Order::Ascending, Order::Random] {
        let terminal = terminals::resting(MOST_ENTRIES, order);
        let [debit, _, credit, _] = terminal.totals();
        let pass = passes::over_journal(&terminal.journal, MOST_ENTRIES);
        same(|| "totals".to_string(), Some((debit, credit)), pass)?;
    }
    Ok(())
}

/// A message with one to three faults, most of them small.
fn altered(message: Vec<u8>, random: &mut Random) -> Vec<u8> {
    let mut bytes = message;
    for _ in 0..=random.below(3) {
        let place = random.below(bytes.len().max(1));
        match random.below(9) {
            0 => bytes.truncate(place),
            1 => bytes.extend(std::iter::repeat(0x11).take(1 + random.below(9))),
            2 => put_keys(&mut bytes, random),
            3 if bytes.len() >= 10 => bytes[2 + random.below(8)] ^= 1 << random.below(8),
            4 if bytes.len() >= 10 => put_bitmap(&mut bytes, random),
            _ if place < bytes.len() => bytes[place] = random.below(256) as u8,
            _ => {}
        }
    }
    bytes
}

/// Any bytes behind a type and a bitmap that are listed.
fn noise(random: &mut Random) -> Vec<u8> {
    let mut bytes: Vec<u8> = (0..10 + random.below(600)).map(|_| random.below(256) as u8).collect();
    bytes[..2].copy_from_slice(&TYPES[random.below(TYPES.len())].to_be_bytes());
    put_bitmap(&mut bytes, random);
    bytes
}

/// Gives field 62 any length up to 300 bytes, where the message reads and holds it.
fn put_keys(bytes: &mut Vec<u8>, random: &mut Random) {
    if let Some(place) = codec::read(bytes).ok().and_then(|view| view.place(KEYS)) {
        let keys = messages::keys(random.below(300));
        bytes.splice(place.start - 2..place.end, keys[10..].iter().copied());
    }
}

/// Puts a bitmap of any listed fields.
fn put_bitmap(bytes: &mut [u8], random: &mut Random) {
    let named = (random.below(1 << 32) as u64) << 32 | random.below(1 << 32) as u64;
    bytes[2..10].copy_from_slice(&(named & LISTED).to_be_bytes());
}

fn same<T: PartialEq + std::fmt::Debug>(what: impl Fn() -> String, library: T, codec: T) -> Result<(), String> {
    if library == codec {
        return Ok(());
    }
    Err(format!("{}: {library:?} and {codec:?}", what()))
}

fn hexadecimal(bytes: &[u8]) -> String {
    bytes.iter().map(|byte| format!("{byte:02X}")).collect()
}
