//! Measures, and prints the tables in Markdown.
use crate::codec::{self, LARGEST};
use crate::library::{self, Terminal, MOST_ENTRIES, QUIET, SENDS};
use crate::messages::{self, READER, SALE};
use crate::passes;
use crate::random::Random;
use crate::terminals::{self, Order, FIRST};
use crate::timing::{medians, runs, Runs};
use std::hint::black_box;

const MIXED_MESSAGES: usize = 64;

pub fn print() {
    print_reading();
    print_writing();
    print_calls();
}

fn print_reading() {
    println!("\n| reading | bytes | library, ns | codec, ns | library / codec |\n|---|---|---|---|---|");
    let mut random = Random::new();
    let sets = [
        ("sale", vec![messages::sale(&[])]),
        ("sale with a chip", vec![messages::sale(READER)]),
        ("answer to a sale", vec![messages::approval(1, SALE.amount)]),
        ("answer to a sign-on", vec![messages::signed_on(1, messages::BATCH, 24)]),
        ("largest message", vec![messages::largest()]),
        ("64 mixed messages, mean", (0..MIXED_MESSAGES).map(|_| messages::any(&mut random)).collect()),
    ];
    for (name, set) in &sets {
        let times = medians(vec![
            over(set, |bytes| {
                black_box(library::read(bytes));
            }),
            over(set, |bytes| {
                black_box(&codec::read(bytes));
            }),
        ]);
        let bytes = set.iter().map(Vec::len).sum::<usize>() / set.len();
        let [library, codec] = [0, 1].map(|case: usize| times[case] / set.len() as f64);
        println!("| {name} | {bytes} | {library:.1} | {codec:.1} | {:.2} |", library / codec);
    }
}

/// A start on an empty journal beside the codec's writing of the same bytes and a pass over the image.
fn print_writing() {
    println!("\n| writing | bytes | start, ns | codec and pass over the image, ns | start / codec and pass |\n|---|---|---|---|---|");
    for (name, chip) in [("sale", &[][..]), ("sale with a chip", READER)] {
        let terminal = terminals::empty(1);
        let image = terminal.image;
        let mut out = [0; LARGEST];
        let times = medians(vec![
            repeated(terminal, SENDS, move |terminal| terminal.start(black_box(&SALE), black_box(chip))),
            runs(move || {
                let sum = passes::over_image(black_box(&image));
                (sum, messages::write_sale(black_box(&SALE), black_box(chip), black_box(FIRST), black_box(&mut out)))
            }),
        ]);
        let bytes = messages::sale(chip).len();
        println!("| {name}, empty journal | {bytes} | {:.1} | {:.1} | {:.2} |", times[0], times[1], times[0] / times[1]);
    }
}

fn print_calls() {
    println!("\n| traces | entries | plain pass, ns | start | answer | no answer | settle | send next upload |");
    println!("|---|---|---|---|---|---|---|---|");
    for (name, order) in [("in order", Order::Ascending), ("random", Order::Random)] {
        for entries in [1, 10, 100, MOST_ENTRIES] {
            let times = medians(calls(entries, order));
            let passes: Vec<String> = times[1..].iter().map(|time| format!("{:.2}", time / times[0])).collect();
            println!("| {name} | {entries} | {:.0} | {} |", times[0], passes.join(" | "));
        }
    }
}

/// A run reads every message of a set.
fn over<'a>(set: &'a [Vec<u8>], read: impl Fn(&[u8]) + 'a) -> Runs<'a> {
    runs(move || set.iter().for_each(|bytes| read(black_box(bytes))))
}

/// The plain pass, then the calls. A sale needs a place in the journal: where it is full, start, answer and no answer have one entry less.
fn calls(entries: usize, order: Order) -> Vec<Runs<'static>> {
    let with_place = entries.min(MOST_ENTRIES - 1);
    let resting = terminals::resting(entries, order);
    let journal = resting.journal.clone();
    let (awaiting, approval) = terminals::awaiting(with_place, order);
    vec![
        runs(move || passes::over_journal(black_box(&journal), entries)),
        repeated(terminals::resting(with_place, order), SENDS, |terminal| terminal.start(black_box(&SALE), &[])),
        repeated(awaiting.clone(), QUIET, move |terminal| terminal.answer(black_box(&approval))),
        repeated(awaiting, QUIET, Terminal::no_answer),
        repeated(resting, SENDS, Terminal::settle),
        repeated(terminals::uploading(entries, order), SENDS, Terminal::send_next_upload),
    ]
}

/// A call that is made again and again on the same state: the image is put back before each. None of these calls changes the entries
/// that were there.
fn repeated(mut terminal: Terminal, expected: u8, call: impl Fn(&mut Terminal) -> u8 + 'static) -> Runs<'static> {
    let image = terminal.image;
    let mut once = move || {
        terminal.image = *black_box(&image);
        call(&mut terminal)
    };
    assert_eq!([once(), once()], [expected; 2], "a measured call");
    runs(once)
}
