//! A host that plays whole transfers, with as much mischief as a stream asks for, and stays inside the domain.

use crate::domain::{inside, Seen};
use crate::drive::{Case, Source};
use crate::event::*;
use crate::requests::Requests;
use crate::rng::Rng;

/// What the host thinks is going on.
#[derive(Clone, Copy, PartialEq)]
enum Phase {
    Rest,
    In,
    Out { left: usize },
    StatusIn,
}

/// One control transfer: its SETUP, the length of an OUT packet, and how many bytes come beyond wLength.
#[derive(Clone, Copy)]
pub struct Transfer {
    pub setup: [u8; 8],
    pub packet: usize,
    pub extra: usize,
}

pub struct Host {
    rng: Rng,
    requests: Requests,
    phase: Phase,
    transfer: Transfer,
    /// One event in so many goes astray; 0 for none.
    mischief: usize,
    /// The transfers to play; none: any, until the events run out.
    plan: Option<std::vec::IntoIter<Transfer>>,
    left: usize,
    /// Events since the device last moved on while no SETUP is allowed.
    stuck: usize,
}

impl Host {
    pub fn any(case: &Case, mut rng: Rng, events: usize) -> Self {
        let mischief = rng.pick(&[0, 64, 16, 8, 4, 2, 1]);
        Host::astray_once_in(mischief, case, rng, events)
    }

    pub fn astray_once_in(mischief: usize, case: &Case, rng: Rng, events: usize) -> Self {
        Host { mischief, left: events, plan: None, ..Host::planned(case, rng, vec![]) }
    }

    pub fn planned(case: &Case, rng: Rng, plan: Vec<Transfer>) -> Self {
        let transfer = Transfer { setup: [0; 8], packet: 0, extra: 0 };
        let plan = Some(plan.into_iter());
        Host { rng, requests: Requests::new(case), phase: Phase::Rest, transfer, mischief: 0, plan, left: usize::MAX, stuck: 0 }
    }

    /// Whether every planned transfer was begun.
    pub fn finished(&self) -> bool {
        self.plan.as_ref().is_some_and(|plan| plan.len() == 0)
    }

    fn choose(&mut self) -> Option<Transfer> {
        if let Some(plan) = &mut self.plan {
            return plan.next();
        }
        let size = self.requests.packet;
        // rarely byte by byte, which takes many events
        let packet = if self.rng.once_in(40) { 1 } else { self.rng.pick(&[size, size, size, 8, 64, 33]) };
        let extra = if self.rng.once_in(4) { self.rng.below(65) } else { 0 };
        Some(Transfer { setup: self.requests.setup(&mut self.rng), packet, extra })
    }

    fn begin(&mut self) -> Option<Data> {
        self.transfer = self.choose()?;
        let setup = self.transfer.setup;
        let length = word(&setup, 6) as usize;
        self.phase = match (setup[0] & 0x80, length) {
            (0, 0) => Phase::StatusIn,
            (0, _) => Phase::Out { left: length },
            _ => Phase::In,
        };
        Some(Data::setup(&setup))
    }

    /// The next packet of an OUT data stage; the last may be longer than what is left.
    fn out(&mut self, left: usize) -> Data {
        let size = self.transfer.packet;
        let count = if left <= size { (left + self.transfer.extra).min(PACKET) } else { size };
        let mut bytes = [0; PACKET];
        self.rng.fill(&mut bytes[..count]);
        self.phase = if left <= count { Phase::StatusIn } else { Phase::Out { left: left - count } };
        Data::out(&bytes[..count])
    }

    /// What a good host does next.
    fn good(&mut self, seen: &Seen) -> Option<Data> {
        let stalled = has_action(&seen.entry, STALL_OUT);
        match self.phase {
            Phase::Rest => self.begin(),
            _ if stalled => {
                self.phase = Phase::Rest;
                self.begin()
            }
            // the last IN-complete readied the status stage
            Phase::In if seen.entry[ACTIONS] == UNSTALL_OUT && seen.entry[ACTIONS + 2] == 0 => {
                self.phase = Phase::Rest;
                Some(Data::out(&[]))
            }
            // nothing came of the last event: it went astray, or nothing is to be had any more
            Phase::In if seen.entry[ACTIONS] == 0 && self.mischief != 0 && self.rng.once_in(3) => {
                self.phase = Phase::Rest;
                Some(Data::out(&[]))
            }
            Phase::In => Some(Data::done()),
            Phase::Out { left } => Some(self.out(left)),
            Phase::StatusIn => {
                self.phase = Phase::Rest;
                Some(Data::done())
            }
        }
    }

    /// Packets that nobody asked for, reads that give nothing, events of the bus.
    fn astray(&mut self) -> Event {
        let mut bytes = [0; PACKET];
        self.rng.fill(&mut bytes);
        let count = self.rng.pick(&[0, 0, 0, 1, 7, 8, 63, 64]);
        let mut data = match self.rng.below(12) {
            0 => return bus_event(NOTHING),
            1 => return bus_event(RESET),
            2 => return bus_event(SUSPEND),
            3 => return bus_event(RESUME),
            4 => return bus_event(FLAG_OFF + self.rng.below(2) as u8),
            5 => Data::out(&bytes[..count]),
            6 => Data { out: 1, read: self.rng.pick(&[WOULD_BLOCK, FAULT]), ..Data::new() },
            7 => Data { setup: 1, read: self.rng.pick(&[WOULD_BLOCK, FAULT]), ..Data::new() },
            8 => Data::setup(&self.requests.setup(&mut self.rng)),
            9 => Data::new(),
            10 => Data { out: 1, done: 1, ..Data::out(&bytes[..count]) },
            _ => Data::done(),
        };
        data.refused = self.rng.once_in(3);
        self.noisy(data)
    }

    /// Masks of the other endpoints, bits that are not looked at, bytes that are not read.
    fn noisy(&mut self, mut data: Data) -> Event {
        if self.rng.once_in(8) {
            data.out |= self.rng.word() & self.rng.word() & 0xfffe;
            data.done |= self.rng.word() & self.rng.word() & 0xfffe;
            data.setup |= self.rng.word() & self.rng.word() & 0xfffe;
        }
        if self.rng.once_in(16) {
            data.done |= 1;
        }
        if data.setup & 1 == 1 && self.rng.once_in(8) {
            data.out |= 1;
        }
        if data.read != READ_PACKET && self.rng.once_in(4) {
            data.length = self.rng.below(PACKET + 1);
            self.rng.fill(&mut data.packet[..data.length]);
        }
        if data.out & 1 == 0 && data.setup & 1 == 0 && self.rng.once_in(4) {
            data.read = self.rng.below(3) as u8;
        }
        data.event()
    }

    fn propose(&mut self, seen: &Seen) -> Option<Event> {
        let steady = self.mischief == 0 || !self.rng.once_in(self.mischief);
        // while no SETUP is allowed most streams go on well, since the others soon stand still
        if steady || seen.blocked() && self.mischief > 1 && !self.rng.once_in(8) {
            let mut data = self.good(seen)?;
            data.refused = self.mischief != 0 && self.rng.once_in(24);
            return Some(if self.mischief == 0 { data.event() } else { self.noisy(data) });
        }
        Some(self.astray())
    }

    /// A SETUP that the domain does not have here is tried again as another; then an IN-complete stands in for it.
    fn allowed(&mut self, seen: &Seen) -> Option<Event> {
        for _ in 0..8 {
            let event = self.propose(seen)?;
            if inside(&event, seen) {
                return Some(event);
            }
            self.phase = Phase::Rest;
        }
        Some(Data::done().event())
    }

    fn stands_still(&mut self, seen: &Seen) -> bool {
        let moved = !seen.blocked() || has_action(&seen.entry, WRITE) || has_action(&seen.entry, ADDRESS);
        self.stuck = if moved { 0 } else { self.stuck + 1 };
        self.stuck > 24
    }
}

impl Source for Host {
    fn next(&mut self, seen: &Seen) -> Option<Event> {
        if self.left == 0 || self.stands_still(seen) {
            return None;
        }
        self.left -= 1;
        self.allowed(seen)
    }
}
