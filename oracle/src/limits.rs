//! The limits, one after another: lengths about every size, a buffer exactly full, bytes beyond wLength, every start of a tile read.

use crate::compare::Watch;
use crate::drive::{drive, Case};
use crate::host::{Host, Transfer};
use crate::record::Record;
use crate::requests::setup;
use crate::rng::Rng;

fn get(setup: [u8; 8]) -> Transfer {
    Transfer { setup, packet: 0, extra: 0 }
}

/// OUT of every length in packets of every kind, with none, one and many bytes too many.
fn outs(size: usize) -> Vec<Transfer> {
    let mut plan = vec![];
    for length in 0..=128 {
        for packet in [size, 64, 63, 1] {
            for extra in [0, 1, 64] {
                plan.push(Transfer { setup: setup(0x40, 2, 0, 0, length), packet, extra });
                plan.push(Transfer { setup: setup(0, 9, 1, 0, length), packet, extra });
            }
        }
    }
    plan
}

/// Every start of a tile read, and every length about the packet sizes from a few.
fn tiles(count: u16) -> Vec<Transfer> {
    let starts = (0..=count).map(|start| get(setup(0xc0, 1, start, 0, 17)));
    let lengths = (0..300).flat_map(|length| [0, count.saturating_sub(3)].map(|start| get(setup(0xc0, 1, start, 0, length))));
    starts.chain(lengths).chain([get(setup(0xc0, 1, 0, 0, 0xffff))]).collect()
}

fn descriptors(record: &Record) -> Vec<Transfer> {
    let ids = record.languages.iter().map(|(id, _)| *id).chain([0, 0xffff]);
    let strings = ids.flat_map(|id| (0..5).map(move |number| (0x0300 | number, id)));
    let asked: Vec<(u16, u16)> = strings.chain([(0x0100, 0), (0x0200, 0), (0x0201, 7), (0x0f00, 0)]).collect();
    asked.iter().flat_map(|(value, index)| (0..130).map(move |length| get(setup(0x80, 6, *value, *index, length)))).collect()
}

fn endpoints() -> Vec<Transfer> {
    let asks = |index: u16| {
        [setup(2, 3, 0, index, 0), setup(0x82, 0, 0, index, 2), setup(2, 1, 0, index, 0), setup(0x82, 0, 0, index, 2)]
    };
    let all = (0..256).filter(|index| index & 0x8f != 0x80).flat_map(asks);
    all.chain((0..=128).map(|address| setup(0, 5, address, 0, 0))).map(get).collect()
}

/// Interfaces, endpoints and languages: the fewest, some, the most.
const COUNTS: [[usize; 3]; 4] = [[1, 0, 0], [2, 3, 2], [4, 8, 4], [1, 8, 1]];

pub fn run(books: &[&'static [u8]], watch: &mut Watch) -> Result<(), ()> {
    let mut rng = Rng::new(7);
    for packet in [8, 16, 32, 64] {
        for (i, book) in books.iter().enumerate() {
            let record = Record::with_counts(&mut rng, packet, i % 2 == 1, COUNTS[i]);
            let plans = [outs(packet as usize), tiles((book.len() / 16) as u16), descriptors(&record), endpoints()];
            let case = Case { record, book };
            for plan in plans {
                let mut history = vec![];
                let mut host = Host::planned(&case, rng.clone(), plan);
                let found = drive(&case, &mut host, watch.mutant, &mut watch.tally, &mut history);
                watch.judge(&case, &history, found)?;
                assert!(host.finished(), "a planned transfer was not played");
            }
        }
    }
    Ok(())
}
