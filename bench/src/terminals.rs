//! Terminals in the states that are measured, each made by the library's calls.
use crate::library::{Sale, Terminal, ENTRY_SIZE, MOST_ENTRIES, QUIET, SENDS};
use crate::messages::{approval, difference, signed_on, BATCH, MERCHANT, SALE, TERMINAL};
use crate::random::Random;

#[derive(Clone, Copy, PartialEq)]
pub enum Order {
    Ascending,
    Random,
}

/// The trace of the first sale: the sign-on has taken 1.
pub const FIRST: u32 = 2;

/// Signed on, the journal empty.
pub fn empty(entry_limit: usize) -> Terminal {
    let mut terminal = Terminal::fresh(entry_limit, TERMINAL, MERCHANT);
    assert_eq!(terminal.sign_on(), SENDS);
    assert_eq!(terminal.answer(&signed_on(1, BATCH, 24)), QUIET);
    terminal
}

/// At rest, with so many approved sales of traces 2, 3, .. in a journal of the largest limit. The calls give traces in order; the
/// random order is that of the same entries, exchanged.
pub fn resting(entries: usize, order: Order) -> Terminal {
    let mut terminal = empty(MOST_ENTRIES);
    for trace in FIRST..FIRST + entries as u32 {
        let sale = Sale { amount: SALE.amount + u64::from(trace), ..SALE };
        assert_eq!(terminal.start(&sale, &[]), SENDS);
        assert_eq!(terminal.answer(&approval(trace, sale.amount)), QUIET);
    }
    if order == Order::Random {
        let mut random = Random::new();
        for last in (1..entries).rev() {
            exchange(&mut terminal.journal, random.below(last + 1), last);
        }
    }
    terminal
}

/// The same, with one more sale awaiting its answer; and the approval of it.
pub fn awaiting(entries: usize, order: Order) -> (Terminal, Vec<u8>) {
    let mut terminal = resting(entries, order);
    assert_eq!(terminal.start(&SALE, &[]), SENDS);
    (terminal, approval(FIRST + entries as u32, SALE.amount))
}

/// The same entries, the upload asked for and none sent.
pub fn uploading(entries: usize, order: Order) -> Terminal {
    let mut terminal = resting(entries, order);
    assert_eq!(terminal.settle(), SENDS);
    assert_eq!(terminal.answer(&difference(FIRST + entries as u32)), QUIET);
    terminal
}

fn exchange(journal: &mut [u8], one: usize, other: usize) {
    for place in 0..ENTRY_SIZE {
        journal.swap(one * ENTRY_SIZE + place, other * ENTRY_SIZE + place);
    }
}
