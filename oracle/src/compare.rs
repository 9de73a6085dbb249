//! The comparison: the limits, every short stream, then streams of a seeded host until there were as many events as asked for.

use crate::drive::{drive, replay, Case, Found};
use crate::event::{hex, told, Event};
use crate::host::Host;
use crate::mutant::Mutant;
use crate::record::{book, Record};
use crate::rng::Rng;
use crate::shrink::Shrink;
use crate::tally::Tally;
use crate::{exhaustive, limits};
use std::process::ExitCode;
use std::time::{Duration, Instant};

/// What is counted, and when progress was last shown.
pub struct Watch {
    pub mutant: Mutant,
    pub tally: Tally,
    start: Instant,
    shown: Instant,
}

impl Watch {
    fn new(mutant: Mutant) -> Self {
        Watch { mutant, tally: Tally::default(), start: Instant::now(), shown: Instant::now() }
    }

    fn show(&mut self) {
        if self.shown.elapsed() > Duration::from_secs(5) {
            self.shown = Instant::now();
            eprintln!(
                "{} events in {} streams, {} s, no difference",
                self.tally.events,
                self.tally.streams,
                self.start.elapsed().as_secs()
            );
        }
    }

    /// Goes on, or tells of a difference with the shortest stream that shows it.
    pub fn judge(&mut self, case: &Case, history: &[Event], found: Found) -> Result<(), ()> {
        self.show();
        if let Found::Differs(..) = found {
            tell(case, history, self.mutant);
            return Err(());
        }
        Ok(())
    }
}

fn tell(case: &Case, history: &[Event], mutant: Mutant) {
    let shrink = Shrink::new(case, history, mutant);
    let events = shrink.shorten(history);
    println!("a difference, after a stream of {} events; shortened:", history.len());
    println!("record: {}, book of {} records", case.record.told(), case.book.len() / 16);
    println!("{}", hex(&case.record.bytes()).trim_end_matches('0'));
    for (i, event) in events.iter().enumerate() {
        println!("{} {}", i + 1, told(event));
    }
    match replay(shrink.slices, case, &events, mutant) {
        Found::Differs(at, text) => println!("at event {at}:\n{text}"),
        found => println!("{found:?}"),
    }
}

/// Books of no record, one, some and all.
pub fn books() -> [&'static [u8]; 4] {
    [book(0), book(1), book(70), book(4096)]
}

fn streams(events: u64, seed: u64, books: &[&'static [u8]], watch: &mut Watch) -> Result<(), ()> {
    let mut rng = Rng::new(seed);
    let mut history = vec![];
    // at least half as many as were asked for, whatever the limits and the short streams took
    let events = events.max(watch.tally.events + events / 2);
    while watch.tally.events < events {
        let (packet, quirk) = (rng.pick(&[8, 16, 32, 64]), rng.once_in(3));
        let case = Case { record: Record::random(&mut rng, packet, quirk), book: rng.pick(books) };
        let length = rng.pick(&[20, 200, 1000, 3000]).min((events - watch.tally.events) as usize);
        let mut host = Host::any(&case, Rng::new(rng.next()), length);
        history.clear();
        let found = drive(&case, &mut host, watch.mutant, &mut watch.tally, &mut history);
        watch.judge(&case, &history, found)?;
    }
    Ok(())
}

/// How deep the short streams go; their number grows sixteenfold with each event.
fn depth(events: u64) -> usize {
    match events {
        0..=999_999 => 3,
        1_000_000..=49_999_999 => 4,
        50_000_000..=999_999_999 => 5,
        _ => 6,
    }
}

fn all(events: u64, seed: u64, watch: &mut Watch) -> Result<(), ()> {
    let books = books();
    limits::run(&books, watch)?;
    println!("limits: {} events in {} streams", watch.tally.events, watch.tally.streams);
    let before = watch.tally.clone();
    exhaustive::run(depth(events), &books, watch)?;
    let (more, streams_more) = (watch.tally.events - before.events, watch.tally.streams - before.streams);
    println!("every stream of {}: {more} events in {streams_more} streams", depth(events));
    streams(events, seed, &books, watch)
}

pub fn main(events: u64, seed: u64) -> ExitCode {
    let number = std::env::var("ORACLE_MUTANT").ok().and_then(|word| word.parse().ok()).unwrap_or(0);
    let mut watch = Watch::new(Mutant(number));
    let found = all(events, seed, &mut watch);
    if found.is_err() {
        return ExitCode::FAILURE;
    }
    watch.tally.print();
    println!("seed {seed}, {} s: no difference", watch.start.elapsed().as_secs());
    ExitCode::SUCCESS
}
