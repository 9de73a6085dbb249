//! Each listed difference on a short stream outside the domain, with both outcomes; and what is listed although both do the same.

use crate::drive::Case;
use crate::event::*;
use crate::original::{self, Original};
use crate::ours::Ours;
use crate::record::{book, pan, Record};
use crate::requests::setup;
use std::panic::{catch_unwind, AssertUnwindSafe};
use std::process::ExitCode;

#[derive(Clone, Copy, PartialEq, Debug)]
enum Outcome {
    /// The same but for each `ui`, which the Rust does not have.
    SameButUnstallIn,
    Differs,
    RustPanics,
}

struct Listed {
    name: &'static str,
    expected: Outcome,
    case: Case,
    events: Vec<Event>,
}

fn ask(kind: u8, request: u8, value: u16, index: u16, length: u16) -> Event {
    Data::setup(&setup(kind, request, value, index, length)).event()
}

fn refused(event: Event) -> Event {
    let mut event = event;
    event[2] = 1;
    event
}

fn done() -> Event {
    Data::done().event()
}

fn out(bytes: &[u8]) -> Event {
    Data::out(bytes).event()
}

fn device(length: u16) -> Event {
    ask(0x80, 6, 0x0100, 0, length)
}

fn tiles(length: u16) -> Event {
    ask(0xc0, 1, 0, 0, length)
}

fn on(record: Record, tiles: usize) -> Case {
    Case { record, book: book(tiles) }
}

fn listed(name: &'static str, expected: Outcome, case: Case, events: Vec<Event>) -> Listed {
    Listed { name, expected, case, events }
}

fn static_answer() -> Vec<Listed> {
    let one = || on(pan(8, false), 1);
    vec![
        listed(
            "a SETUP abandons a tile answer: its bytes open the next answer",
            Outcome::Differs,
            on(pan(8, false), 3),
            vec![tiles(48), device(18), done(), done()],
        ),
        listed(
            "an early status abandons a tile answer: the Rust reads the slice past its end",
            Outcome::RustPanics,
            one(),
            vec![tiles(16), out(&[]), device(18), done(), done()],
        ),
        listed(
            "a reset abandons a tile answer: its bytes open the next answer",
            Outcome::Differs,
            one(),
            vec![tiles(16), bus_event(RESET), device(8)],
        ),
        listed(
            "a tile answer is abandoned for another tile answer",
            Outcome::SameButUnstallIn,
            one(),
            vec![tiles(16), tiles(12), done(), done()],
        ),
    ]
}

fn address() -> Vec<Listed> {
    let plain = || on(pan(8, false), 0);
    let five = || ask(0, 5, 5, 0, 0);
    let configure = || ask(0, 9, 1, 0, 0);
    vec![
        listed(
            "field note 12: an address whose status went wrong is set by the next request",
            Outcome::Differs,
            plain(),
            vec![refused(five()), configure(), done()],
        ),
        listed(
            "an address is pending over an IN transfer, and set by the next OUT request",
            Outcome::Differs,
            plain(),
            vec![five(), device(8), done(), done(), out(&[]), configure(), done()],
        ),
        listed(
            "a reset with an address pending",
            Outcome::SameButUnstallIn,
            plain(),
            vec![five(), bus_event(RESET), done(), configure(), done()],
        ),
    ]
}

fn setups() -> Vec<Listed> {
    let plain = || on(pan(8, false), 0);
    let long = || ask(0x40, 2, 0, 0, 129);
    vec![
        listed(
            "OUT over 128: the Rust goes on with the old answer",
            Outcome::Differs,
            plain(),
            vec![device(18), long(), done(), done()],
        ),
        listed(
            "OUT over 128: the Rust goes on with the old OUT data",
            Outcome::Differs,
            plain(),
            vec![ask(0, 9, 1, 0, 2), long(), out(&[1, 2])],
        ),
        listed(
            "a SETUP of another length: the Rust has it in the answer",
            Outcome::Differs,
            plain(),
            vec![device(18), Data::setup(&[0xaa; 18]).event(), done(), done()],
        ),
        listed(
            "a SETUP of another length: the Rust has it in the OUT data",
            Outcome::Differs,
            plain(),
            vec![ask(0x40, 2, 0, 0, 9), out(&[1; 8]), Data::setup(&[0xaa; 7]).event(), out(&[2])],
        ),
        listed(
            "a stalled request, then GET_STATUS of endpoint 80h",
            Outcome::Differs,
            plain(),
            vec![ask(0x80, 12, 0, 0, 2), ask(0x82, 0, 0, 0x80, 2)],
        ),
        listed(
            "a halt of endpoint 80h set by SET_FEATURE, then GET_STATUS of it",
            Outcome::Differs,
            plain(),
            vec![ask(2, 3, 0, 0x80, 0), done(), ask(0x82, 0, 0, 0x80, 2)],
        ),
        listed(
            "a stall ends for IN too when a SETUP is accepted: `ui`, left out of the comparison",
            Outcome::SameButUnstallIn,
            plain(),
            vec![ask(0x80, 12, 0, 0, 2), device(8)],
        ),
    ]
}

fn two_languages(product: Option<Vec<u16>>) -> Record {
    let mut record = pan(64, false);
    record.languages = vec![(0x0409, [Some(vec![0x50]), product, None]), (0x0407, [None, Some(vec![0x51]), None])];
    record
}

fn descriptors() -> Vec<Listed> {
    let string = || ask(0x80, 6, 0x0302, 0x0409, 64);
    vec![
        listed(
            "a string that only the second language has: its number in the device descriptor",
            Outcome::Differs,
            on(two_languages(None), 0),
            vec![device(18)],
        ),
        listed(
            "a string of broken UTF-16, which the Rust can only be given replaced",
            Outcome::Differs,
            on(two_languages(Some(vec![0xd800, 0x41])), 0),
            vec![string()],
        ),
        listed(
            "the empty packet after wLength bytes, as the Rust sends it",
            Outcome::SameButUnstallIn,
            on(pan(8, false), 0),
            vec![device(16), done(), done(), done(), out(&[])],
        ),
        listed(
            "IN with wLength 0, as the Rust answers it",
            Outcome::SameButUnstallIn,
            on(pan(8, false), 0),
            vec![device(0), done(), out(&[])],
        ),
    ]
}

fn step(original: &mut dyn Original, event: &Event) -> Option<Entry> {
    let mut entry = [0; ENTRY];
    catch_unwind(AssertUnwindSafe(|| original.step(event, &mut entry))).ok().map(|()| entry)
}

fn data(bytes: Option<&[u8]>) -> String {
    bytes.map_or("none".into(), hex)
}

fn show_data(rust: Option<&[u8]>, ours: Option<&[u8]>) -> bool {
    if rust != ours {
        println!("  the OUT data\n      the Rust  {}\n      ours      {}", data(rust), data(ours));
    }
    rust == ours
}

/// Both through the events, each outcome printed.
fn both(listed: &Listed, original: &mut dyn Original, ours: &mut Ours) -> Outcome {
    let mut outcome = Outcome::SameButUnstallIn;
    for event in &listed.events {
        let mut trace = [[0; ENTRY]];
        let answer = ours.run(&[*event], &mut trace);
        let Some(rust) = step(original, event) else {
            println!("  {}\n      the Rust  panics\n      ours      {}", told(event), line(&trace[0]));
            return Outcome::RustPanics;
        };
        assert_eq!(answer, (1, 0), "ours takes every event");
        println!("  {}\n      the Rust  {}\n      ours      {}", told(event), line(&rust), line(&trace[0]));
        without_unstall_in(&mut trace[0]);
        if rust != trace[0] {
            outcome = Outcome::Differs;
        }
    }
    let held = ours.data().expect("ours was built");
    if !show_data(original.wire().data(), held.as_deref()) {
        outcome = Outcome::Differs;
    }
    outcome
}

fn show(listed: &Listed) -> bool {
    println!("{}", listed.name);
    let mut ours = Ours::build(&listed.case.record.bytes(), listed.case.book).expect("the record is good");
    let outcome = original::with(&listed.case.record, listed.case.book, &mut |original| both(listed, original, &mut ours));
    println!("  {outcome:?}{}\n", if outcome == listed.expected { "" } else { ": NOT AS LISTED" });
    outcome == listed.expected
}

pub fn main() -> ExitCode {
    let all: Vec<Listed> = [static_answer(), address(), setups(), descriptors()].into_iter().flatten().collect();
    let wrong = all.iter().filter(|listed| !show(listed)).count();
    println!("{} streams outside the domain, {wrong} not as listed", all.len());
    ExitCode::from((wrong > 0) as u8)
}
