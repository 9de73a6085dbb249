//! Both sides through one stream: the Rust event by event, since what comes next may depend on it; ours after it, in slices.

use crate::domain::{inside, Seen};
use crate::event::*;
use crate::mutant::Mutant;
use crate::original::{self, Original};
use crate::ours::{Ours, LIVE};
use crate::record::Record;
use crate::tally::Tally;
use std::panic::{catch_unwind, AssertUnwindSafe};

#[derive(Clone)]
pub struct Case {
    pub record: Record,
    pub book: &'static [u8],
}

/// Where events come from.
pub trait Source {
    fn next(&mut self, seen: &Seen) -> Option<Event>;
}

/// A list of events.
pub struct List<'a> {
    events: &'a [Event],
}

impl<'a> List<'a> {
    pub fn new(events: &'a [Event]) -> Self {
        List { events }
    }
}

impl Source for List<'_> {
    fn next(&mut self, _: &Seen) -> Option<Event> {
        let (first, rest) = self.events.split_first()?;
        self.events = rest;
        Some(*first)
    }
}

/// What was found of a stream.
#[derive(Clone, Debug, PartialEq)]
pub enum Found {
    Equal,
    /// The event at this place is outside the domain; those before it gave no difference.
    Outside(usize),
    /// How they part, as lines, and how many events lead to it.
    Differs(usize, String),
}

/// The longest slice that ours is given at once.
const SLICE: usize = 64;

/// How ours is lent the stream: in slices of every length, so that nothing can hide behind one, or event by event.
#[derive(Clone, Copy, PartialEq)]
pub enum Slices {
    Varied,
    Single,
}

struct Run<'a> {
    slices: Slices,
    mutant: Mutant,
    ours: Ours,
    slice: Vec<Event>,
    expected: Vec<Entry>,
    done: usize,
    limit: usize,
    tally: &'a mut Tally,
}

fn both(what: &str, rust: impl std::fmt::Debug, ours: impl std::fmt::Debug) -> String {
    format!("{what}\n  the Rust: {rust:?}\n  ours:     {ours:?}")
}

impl Run<'_> {
    fn differs(&self, at: usize, text: String) -> Result<(), Found> {
        Err(Found::Differs(self.done + at, text))
    }

    fn compare_entries(&mut self, trace: &mut [Entry]) -> Result<(), Found> {
        for (i, (ours, rust)) in trace.iter_mut().zip(&self.expected).enumerate() {
            self.mutant.entry(&self.slice[i], ours);
            without_unstall_in(ours);
            if ours != rust {
                let told = format!("  the Rust: {}\n  ours:     {}", line(rust), line(ours));
                return self.differs(i + 1, told);
            }
        }
        Ok(())
    }

    fn compare_kept(&self, original: &dyn Original) -> Result<(), Found> {
        let (rust, ours) = (original.kept(), self.ours.kept());
        if rust != ours {
            return self.differs(0, both("what outlives a transfer", rust, ours));
        }
        let mut data = self.ours.data();
        self.mutant.data(&mut data);
        if data.as_ref().ok().map(Option::as_deref) != Some(original.wire().data()) {
            return self.differs(0, both("the OUT data", original.wire().data(), data));
        }
        Ok(())
    }

    /// Ours through the slice, then everything compared.
    fn flush(&mut self, original: &dyn Original) -> Result<(), Found> {
        let count = self.slice.len();
        let mut trace = [[0; ENTRY]; SLICE];
        let mut given = [[0; EVENT]; SLICE];
        given[..count].copy_from_slice(&self.slice);
        self.mutant.events(&mut given[..count]);
        let before = self.ours.state;
        if let Some(event) = self.slice.first() {
            self.tally.meet(before[LIVE], before[LIVE + 31] == 3, event);
        }
        let answer = self.ours.run(&given[..count], &mut trace[..count]);
        if answer != (count, 0) {
            return self.differs(answer.0 + 1, both("count and refusal", (count, 0), answer));
        }
        self.mutant.state(&self.slice, &before, &mut self.ours.state);
        self.compare_entries(&mut trace[..count])?;
        self.done += count;
        self.tally.add(&self.slice, &self.expected);
        self.slice.clear();
        self.expected.clear();
        if self.slices == Slices::Varied {
            // steps through all lengths before it comes round
            self.limit = 1 + ((self.limit - 1) * 5 + 3) % SLICE;
        }
        self.compare_kept(original)
    }

    fn set_flag(&mut self, on: bool, original: &mut dyn Original) -> Result<(), Found> {
        self.flush(original)?;
        original.set_self_powered(on);
        let number = self.ours.set_self_powered(self.mutant.flag(on));
        self.done += 1;
        self.tally.flags += 1;
        if number != 0 {
            return self.differs(0, both("the self-powered flag", 0, number));
        }
        self.compare_kept(original)
    }

    fn step(&mut self, event: &Event, original: &mut dyn Original) -> Result<Entry, Found> {
        let mut entry = [0; ENTRY];
        if catch_unwind(AssertUnwindSafe(|| original.step(event, &mut entry))).is_err() {
            return Err(Found::Differs(self.done + self.slice.len() + 1, "  the Rust panics".into()));
        }
        self.slice.push(*event);
        self.expected.push(entry);
        if self.slice.len() >= self.limit || original.wire().fresh.get() {
            self.flush(original)?;
        }
        Ok(entry)
    }

    fn stream(&mut self, source: &mut dyn Source, original: &mut dyn Original, history: &mut Vec<Event>) -> Result<(), Found> {
        let mut seen = Seen::new();
        while let Some(event) = source.next(&seen) {
            if !inside(&event, &seen) {
                self.flush(original)?;
                return Err(Found::Outside(history.len()));
            }
            history.push(event);
            if event[0] > DATA {
                self.set_flag(event[0] == FLAG_ON, original)?;
                continue;
            }
            let entry = self.step(&event, original)?;
            seen = Seen::of(original.wire(), entry);
        }
        self.flush(original)
    }
}

fn drive_in(
    slices: Slices,
    case: &Case,
    source: &mut dyn Source,
    mutant: Mutant,
    tally: &mut Tally,
    history: &mut Vec<Event>,
) -> Found {
    let mut bytes = case.record.bytes();
    mutant.record(&mut bytes);
    let ours = match Ours::build(&bytes, case.book) {
        Ok(ours) => ours,
        Err(number) => return Found::Differs(0, format!("ours refuses the record with {number}")),
    };
    let (slice, expected) = (Vec::with_capacity(SLICE), Vec::with_capacity(SLICE));
    let mut run = Run { slices, mutant, ours, slice, expected, done: 0, limit: 1, tally };
    run.tally.streams += 1;
    original::with(&case.record, case.book, &mut |original| run.stream(source, original, history).err().unwrap_or(Found::Equal))
}

/// Drives both through the source's events, which are put into the history.
pub fn drive(case: &Case, source: &mut dyn Source, mutant: Mutant, tally: &mut Tally, history: &mut Vec<Event>) -> Found {
    drive_in(Slices::Varied, case, source, mutant, tally, history)
}

/// The same for a list, of which nothing is counted.
pub fn replay(slices: Slices, case: &Case, events: &[Event], mutant: Mutant) -> Found {
    drive_in(slices, case, &mut List::new(events), mutant, &mut Tally::default(), &mut vec![])
}
