//! A sample of the Rust's answers, kept as crates/beside/stdin and stdout, so that the gate replays it without Rust.

use crate::compare::books;
use crate::domain::{inside, Seen};
use crate::drive::{Case, Source};
use crate::event::*;
use crate::host::Host;
use crate::original;
use crate::record::Record;
use crate::rng::Rng;
use std::fs::write;
use std::process::ExitCode;

// What the program of crates/beside reads: of each stream the record, whether it is self-powered, how many records the book has,
// room for 70 of them, and the events.
const STREAMS: usize = 12;
const EVENTS: usize = 250;
const TILES: usize = 70;

struct Stream {
    powered: bool,
    case: Case,
    events: Vec<Event>,
    trace: Vec<Entry>,
}

fn play(case: &Case, powered: bool, rng: Rng) -> Option<Stream> {
    let mut host = Host::astray_once_in(12, case, rng, usize::MAX);
    let mut stream = Stream { powered, case: case.clone(), events: vec![], trace: vec![] };
    original::with(&case.record, case.book, &mut |original| {
        original.set_self_powered(powered);
        let mut seen = Seen::new();
        while stream.events.len() < EVENTS {
            let event = host.next(&seen)?;
            // the flag is set once, before the first event
            if event[0] > DATA {
                continue;
            }
            assert!(inside(&event, &seen), "an event outside the domain");
            let mut entry = [0; ENTRY];
            original.step(&event, &mut entry);
            seen = Seen::of(original.wire(), entry);
            stream.events.push(event);
            stream.trace.push(entry);
        }
        Some(())
    })?;
    Some(stream)
}

fn input(stream: &Stream) -> Vec<u8> {
    let mut bytes = stream.case.record.bytes().to_vec();
    bytes.extend([stream.powered as u8, (stream.case.book.len() / 16) as u8]);
    let mut tiles = stream.case.book.to_vec();
    tiles.resize(16 * TILES, 0);
    bytes.extend(tiles);
    bytes.extend(stream.events.as_flattened());
    bytes
}

/// State, answer, masks; the actions; the packet up to its last byte that is not 0.
fn text(entry: &Entry) -> String {
    let actions: String = entry[ACTIONS..WRITTEN].chunks(2).filter(|action| action[0] != 0).map(hex).collect();
    let used = entry[WRITTEN..].iter().rposition(|byte| *byte != 0).map_or(0, |last| last + 1);
    format!("{}.{actions}.{}\n", hex(&entry[..ACTIONS]), hex(&entry[WRITTEN..WRITTEN + used]))
}

pub fn main() -> ExitCode {
    let mut rng = Rng::new(1);
    let books = books();
    let (mut stdin, mut stdout) = (vec![], String::new());
    for i in 0..STREAMS {
        let (packet, quirk) = ([8, 16, 32, 64][i % 4], i % 3 == 2);
        let stream = loop {
            let case = Case { record: Record::random(&mut rng, packet, quirk), book: books[[2, 1, 2, 2, 0, 2][i % 6]] };
            // a stream that stands still before its end is left for another
            if let Some(stream) = play(&case, i % 2 == 1, Rng::new(rng.next())) {
                break stream;
            }
        };
        stdin.extend(input(&stream));
        stdout.extend(stream.trace.iter().map(text));
        stdout += "0\n";
    }
    let wrote = write("crates/beside/stdin", stdin).and_then(|()| write("crates/beside/stdout", stdout));
    if let Err(error) = wrote {
        eprintln!("oracle: crates/beside: {error}");
        return ExitCode::from(2);
    }
    println!("crates/beside: {STREAMS} streams of {EVENTS} events");
    ExitCode::SUCCESS
}
