//! Every short stream over a small alphabet of events.

use crate::compare::Watch;
use crate::drive::{drive, Case, Found, List};
use crate::event::*;
use crate::record::pan;
use crate::requests::setup;

fn alphabet() -> Vec<Event> {
    let data = [
        Data::setup(&setup(0x80, 6, 0x0100, 0, 18)),
        Data::setup(&setup(0xc0, 1, 0, 0, 16)),
        Data::setup(&setup(0, 5, 5, 0, 0)),
        Data::setup(&setup(0, 9, 1, 0, 0)).refused(),
        Data::setup(&setup(0, 9, 1, 0, 3)),
        Data::setup(&setup(0x80, 12, 0, 0, 2)),
        Data { done: 1, read: WOULD_BLOCK, ..Data::setup(&[]) },
        Data::done(),
        Data::done().refused(),
        Data::out(&[]),
        Data::out(&[1, 2, 3]),
        Data { done: 1, ..Data::out(&[7]) },
        Data { out: 1, read: FAULT, ..Data::new() },
    ];
    let bus = [bus_event(RESET), bus_event(SUSPEND), bus_event(RESUME)];
    data.iter().map(Data::event).chain(bus).collect()
}

/// Counts up from the right, from the place that is to change; false when all were counted.
fn turn(digits: &mut [usize], from: usize, base: usize) -> bool {
    digits[from + 1..].fill(0);
    for digit in digits[..=from].iter_mut().rev() {
        *digit += 1;
        if *digit < base {
            return true;
        }
        *digit = 0;
    }
    false
}

fn all(case: &Case, depth: usize, watch: &mut Watch) -> Result<(), ()> {
    let letters = alphabet();
    let mut digits = vec![0; depth];
    loop {
        let events: Vec<Event> = digits.iter().map(|digit| letters[*digit]).collect();
        let mut history = vec![];
        let found = drive(case, &mut List::new(&events), watch.mutant, &mut watch.tally, &mut history);
        // what begins like a stream outside the domain is outside too
        let from = if let Found::Outside(at) = found { at } else { depth - 1 };
        watch.judge(case, &history, found)?;
        if !turn(&mut digits, from, letters.len()) {
            return Ok(());
        }
    }
}

pub fn run(depth: usize, books: &[&'static [u8]], watch: &mut Watch) -> Result<(), ()> {
    for (packet, quirk) in [(8, false), (8, true), (64, false)] {
        all(&Case { record: pan(packet, quirk), book: books[1] }, depth, watch)?;
    }
    Ok(())
}
