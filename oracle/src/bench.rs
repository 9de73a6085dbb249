//! One million events, made once and fed to both: half of them of tile reads of a full book.

use crate::bus::{halt_bit, polled, received};
use crate::domain::{inside, Seen};
use crate::drive::{Case, Source};
use crate::event::*;
use crate::host::{Host, Transfer};
use crate::original::{self, Original};
use crate::ours::Ours;
use crate::record::{book, Record};
use crate::requests::{setup, Requests};
use crate::rng::Rng;
use std::cell::Cell;
use std::hint::black_box;
use std::process::ExitCode;
use usb_device::bus::{PollResult, UsbBus, UsbBusAllocator};
use usb_device::device::UsbDevice;
use usb_device::endpoint::{EndpointAddress, EndpointType};
use usb_device::{Result, UsbDirection, UsbError};

const EVENTS: usize = 1_000_000;
/// How many events a side is given at once.
const SLICE: usize = 4096;
const ROUNDS: usize = 11;

/// Whole transfers, tile reads and others in turn, so that half of the events are of tile reads.
struct Mix<'a> {
    case: &'a Case,
    rng: Rng,
    requests: Requests,
    host: Host,
    tiles: bool,
    counts: [usize; 2],
}

impl Mix<'_> {
    fn tile(&mut self) -> [u8; 8] {
        let length = 16 + self.rng.below(0xffff - 15) as u16;
        setup(0xc0, 1, self.rng.below(4096) as u16, 0, length)
    }

    fn other(&mut self) -> [u8; 8] {
        loop {
            let bytes = self.requests.setup(&mut self.rng);
            if bytes[..2] != [0xc0, 1] && inside(&Data::setup(&bytes).event(), &Seen::new()) {
                return bytes;
            }
        }
    }

    fn begin(&mut self) {
        self.tiles = self.counts[1] < self.counts[0];
        let setup = if self.tiles { self.tile() } else { self.other() };
        let transfer = Transfer { setup, packet: self.requests.packet, extra: 0 };
        self.host = Host::planned(self.case, self.rng.clone(), vec![transfer]);
    }

    /// Now and then something that is no transfer.
    fn between(&mut self) -> Option<Event> {
        match self.rng.below(40) {
            0 => Some(bus_event(NOTHING)),
            1 => Some(bus_event(SUSPEND)),
            2 => Some(bus_event(RESUME)),
            3 => Some(bus_event(RESET)),
            4..=7 => Some(Data { out: self.rng.word() & 0xfffe, done: self.rng.word() & 0xfffe, ..Data::new() }.event()),
            _ => None,
        }
    }
}

impl Source for Mix<'_> {
    fn next(&mut self, seen: &Seen) -> Option<Event> {
        loop {
            if let Some(event) = self.host.next(seen) {
                self.counts[self.tiles as usize] += 1;
                return Some(event);
            }
            self.begin();
            if let Some(event) = self.between() {
                self.counts[0] += 1;
                return Some(event);
            }
        }
    }
}

fn make(case: &Case) -> (Vec<Event>, [usize; 2]) {
    let rng = Rng::new(11);
    let host = Host::planned(case, rng.clone(), vec![]);
    let mut mix = Mix { case, rng, requests: Requests::new(case), host, tiles: false, counts: [0; 2] };
    let mut events = Vec::with_capacity(EVENTS);
    original::with(&case.record, case.book, &mut |original| {
        let mut seen = Seen::new();
        while events.len() < EVENTS {
            let event = mix.next(&seen).expect("the mix has no end");
            assert!(inside(&event, &seen), "an event outside the domain");
            let mut entry = [0; ENTRY];
            original.step(&event, &mut entry);
            seen = Seen::of(original.wire(), entry);
            events.push(event);
        }
    });
    (events, mix.counts)
}

/// A bus that only hands out the event and takes the packet: no trace, so that the Rust is timed without it too.
struct Bare<'a> {
    event: &'a Cell<*const Event>,
    room: Cell<[u8; PACKET]>,
    halts: Cell<u32>,
}

unsafe impl Sync for Bare<'_> {}

impl Bare<'_> {
    fn event(&self) -> &Event {
        unsafe { &*self.event.get() }
    }
}

impl UsbBus for Bare<'_> {
    fn alloc_ep(
        &mut self,
        _: UsbDirection,
        address: Option<EndpointAddress>,
        _: EndpointType,
        _: u16,
        _: u8,
    ) -> Result<EndpointAddress> {
        address.ok_or(UsbError::InvalidEndpoint)
    }

    fn enable(&mut self) {}

    fn reset(&self) {
        self.halts.set(0);
    }

    fn set_device_address(&self, address: u8) {
        black_box(address);
    }

    fn write(&self, _: EndpointAddress, bytes: &[u8]) -> Result<usize> {
        if self.event()[2] == 1 {
            return Err(UsbError::WouldBlock);
        }
        let room = unsafe { &mut *self.room.as_ptr() };
        room[..bytes.len()].copy_from_slice(bytes);
        black_box(room);
        Ok(bytes.len())
    }

    fn read(&self, _: EndpointAddress, room: &mut [u8]) -> Result<usize> {
        received(self.event(), room)
    }

    fn set_stalled(&self, address: EndpointAddress, stalled: bool) {
        let bit = halt_bit(address.into());
        self.halts.set(if stalled { self.halts.get() | bit } else { self.halts.get() & !bit });
    }

    fn is_stalled(&self, address: EndpointAddress) -> bool {
        self.halts.get() & halt_bit(address.into()) != 0
    }

    fn suspend(&self) {}

    fn resume(&self) {}

    fn poll(&self) -> PollResult {
        polled(self.event())
    }
}

extern "C" {
    fn clock_gettime(clock: i32, time: *mut [i64; 2]) -> i32;
}

/// The processor's time that this thread took, so that other programs on the machine count less.
fn nanoseconds() -> i64 {
    const CLOCK_THREAD_CPUTIME_ID: i32 = 3;
    let mut time = [0; 2];
    assert_eq!(unsafe { clock_gettime(CLOCK_THREAD_CPUTIME_ID, &mut time) }, 0);
    time[0] * 1_000_000_000 + time[1]
}

/// The Rust on the bare bus.
struct Plain<'a> {
    event: &'a Cell<*const Event>,
    device: UsbDevice<'a, Bare<'a>>,
    class: original::Mast<'a, Bare<'a>>,
}

impl Plain<'_> {
    fn run(&mut self, events: &[Event]) {
        for event in events {
            self.event.set(event);
            black_box(self.device.poll(&mut [&mut self.class]));
        }
    }
}

/// The four that are timed.
struct Racers<'a, 'b> {
    rust: &'a mut dyn Original,
    ours: Ours,
    plain: &'a mut Plain<'b>,
    single: Ours,
    trace: Vec<Entry>,
}

impl Racers<'_, '_> {
    fn run(&mut self, who: usize, slice: &[Event]) {
        let trace = black_box(&mut self.trace[..slice.len()]);
        match who {
            0 => self.rust.run(slice, trace),
            1 => assert_eq!(self.ours.run(slice, trace), (slice.len(), 0)),
            2 => self.plain.run(slice),
            _ => slice.iter().for_each(|event| assert_eq!(self.single.run(&[*event], &mut trace[..1]), (1, 0))),
        }
    }

    /// Nanoseconds an event of each. They take turns at every slice, another one first each time, so that a busy machine and a
    /// cold cache hit all alike.
    fn round(&mut self, events: &[Event]) -> [f64; 4] {
        let mut sums = [0; 4];
        for (i, slice) in events.chunks(SLICE).enumerate() {
            for turn in 0..4 {
                let who = (i + turn) % 4;
                let start = nanoseconds();
                self.run(who, slice);
                sums[who] += nanoseconds() - start;
            }
        }
        sums.map(|sum| sum as f64 / events.len() as f64)
    }
}

fn built(case: &Case) -> Ours {
    Ours::build(&case.record.bytes(), case.book).expect("the record is good")
}

fn round(case: &Case, events: &[Event]) -> [f64; 4] {
    let (event, texts) = (Cell::new(events.as_ptr()), case.record.texts());
    let alloc = UsbBusAllocator::new(Bare { event: &event, room: Cell::new([0; PACKET]), halts: Cell::new(0) });
    let (device, class) = original::built(&alloc, &case.record, &texts, case.book, None);
    let mut plain = Plain { event: &event, device, class };
    original::with(&case.record, case.book, &mut |rust| {
        Racers { rust, ours: built(case), plain: &mut plain, single: built(case), trace: vec![[0; ENTRY]; SLICE] }.round(events)
    })
}

fn median(mut list: Vec<f64>) -> f64 {
    list.sort_by(f64::total_cmp);
    list[list.len() / 2]
}

/// The times are of equal work only if both give the same trace.
fn check(case: &Case, events: &[Event]) {
    let mut ours = built(case);
    let (mut left, mut right) = (vec![[0; ENTRY]; SLICE], vec![[0; ENTRY]; SLICE]);
    original::with(&case.record, case.book, &mut |original| {
        for slice in events.chunks(SLICE) {
            original.run(slice, &mut left);
            ours.run(slice, &mut right[..slice.len()]);
            right.iter_mut().for_each(without_unstall_in);
            assert!(left[..slice.len()] == right[..slice.len()], "the traces differ");
        }
    });
}

fn mix(events: &[Event], counts: [usize; 2]) {
    let setups = events.iter().filter(|event| accepted(event).is_some()).count();
    let done =
        events.iter().filter(|event| event[0] == DATA && event[8] & 1 == 0 && event[4] & 1 == 0 && event[6] & 1 != 0).count();
    let out = events.iter().filter(|event| event[0] == DATA && event[8] & 1 == 0 && event[4] & 1 != 0).count();
    let [others, tiles] = counts;
    println!("{} events: {tiles} of tile reads, {others} others; {setups} SETUPs, {done} IN-completes, {out} OUT", events.len());
}

/// With so many interfaces, endpoints and languages, which ours looks at in each step.
fn race(packet: u8, counts: [usize; 3]) {
    let record = Record::with_counts(&mut Rng::new(packet as u64), packet, false, counts);
    let case = Case { record, book: book(4096) };
    let (events, counts) = make(&case);
    println!("{}, book of 4096 records", case.record.told());
    mix(&events, counts);
    check(&case, &events);
    let rounds: Vec<[f64; 4]> = (0..ROUNDS).map(|_| round(&case, &events)).collect();
    let ratio = |to: usize| median(rounds.iter().map(|times| times[1] / times[to]).collect());
    let [rust, ours, plain, single] = [0, 1, 2, 3].map(|who| median(rounds.iter().map(|times| times[who]).collect()));
    println!("the Rust {rust:.1} ns an event with a trace, {plain:.1} on a bare bus; ours {ours:.1} with a trace");
    println!("ours / the Rust: {:.2} (bare bus: {:.2}); median of {ROUNDS} interleaved rounds", ratio(0), ratio(2));
    println!("a call for each event: {single:.1} ns");
}

pub fn main() -> ExitCode {
    for counts in [[1, 1, 1], [4, 8, 4]] {
        race(8, counts);
        race(64, counts);
    }
    ExitCode::SUCCESS
}
