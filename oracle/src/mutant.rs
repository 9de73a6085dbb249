//! Wrong variants of ours, to show that the comparison sees them. 0 is none; oracle/mutants tries the others.

use crate::event::*;
use crate::ours::{LIVE, RECORD, STATE};

#[derive(Clone, Copy, PartialEq)]
pub struct Mutant(pub u8);

pub const NAMES: [&str; 20] = [
    "a tile read starts one record late",
    "OUT stays stalled when the last packet went out",
    "the state is Addressed when the address is only decided",
    "a byte of the buffer is not the answer's",
    "a halt is kept for the next endpoint",
    "a refused write is not tried again",
    "an IN-complete beside a SETUP ends its status stage",
    "a reset keeps remote wakeup",
    "no empty packet follows a full last one",
    "a suspend forgets the state",
    "OUT of an endpoint with SETUP is told too",
    "OUT data that fills the buffer lacks its last byte",
    "the self-powered flag is always set",
    "a bulk endpoint has no interval",
    "the quirk is turned round",
    "a string of 31 units lacks its last unit",
    "a fault is read as would-block",
    "a resume is answered with yes",
    "a byte too many is counted once 64 OUT bytes are held",
    "the list of languages lacks its last",
];

const STAGE: usize = LIVE;
const HELD: usize = LIVE + 6;
const SENT: usize = LIVE + 27;
const WAKEUP: usize = LIVE + 32;
const HALTS: usize = LIVE + 34;
const BEFORE: usize = LIVE + 38;
const BUFFER: usize = LIVE + 44;
const IDLE: u8 = 0;
const DATA_IN: u8 = 1;
const DATA_IN_ZLP: u8 = 2;
const DATA_IN_LAST: u8 = 3;
const DATA_OUT: u8 = 7;
const STATUS_IN: u8 = 8;

fn add(bytes: &mut [u8], number: u8) {
    let sum = word(bytes, 0).wrapping_add(number as u16);
    bytes[..2].copy_from_slice(&sum.to_le_bytes());
}

impl Mutant {
    /// What ours is given to read.
    pub fn events(self, events: &mut [Event]) {
        for event in events.iter_mut().filter(|event| event[0] == DATA) {
            match self.0 {
                1 if accepted(event).is_some_and(|setup| setup[..2] == [0xc0, 1]) => add(&mut event[18..], 1),
                17 if event[8] & 1 == 0 && event[1] == FAULT => event[1] = WOULD_BLOCK,
                _ => {}
            }
        }
    }

    /// What ours says of an event.
    pub fn entry(self, event: &Event, entry: &mut Entry) {
        match self.0 {
            2 if accepted(event).is_none() && entry[ACTIONS] == UNSTALL_OUT => entry[ACTIONS] = 0,
            3 if accepted(event).is_some_and(|setup| setup[..2] == [0, 5]) && has_action(entry, WRITE) && entry[0] == 0 => {
                entry[0] = 1
            }
            11 if event[0] == DATA => entry[4] |= event[4] & 0xfe,
            18 if event[0] == RESUME => entry[1] = 1,
            _ => {}
        }
    }

    /// What ours holds after a slice.
    pub fn state(self, slice: &[Event], before: &[u8; STATE], state: &mut [u8; STATE]) {
        let Some(last) = slice.last() else { return };
        let setup = accepted(last);
        match (self.0, state[STAGE]) {
            (4, DATA_IN) if state[SENT] < 120 => state[BUFFER + state[SENT] as usize] ^= 0x40,
            (5, _) if setup.is_some_and(|setup| setup[..4] == [2, 3, 0, 0]) => add(&mut state[HALTS..], 2),
            (6, DATA_IN) if last[0] == DATA && last[2] == 1 => add(&mut state[SENT..], 1),
            (7, STATUS_IN) if setup.is_some() && last[6] & 1 != 0 => state[STAGE] = IDLE,
            (8, _) if last[0] == RESET => state[WAKEUP] = before[WAKEUP],
            (9, DATA_IN_ZLP) => state[STAGE] = DATA_IN_LAST,
            (10, _) => state[BEFORE] = 0,
            (19, DATA_OUT) if state[HELD] == 64 => state[HELD] = 65,
            _ => {}
        }
    }

    pub fn data(self, data: &mut Result<Option<Vec<u8>>, u8>) {
        match data {
            Ok(Some(bytes)) if self.0 == 12 && bytes.len() == 128 => bytes.truncate(127),
            _ => {}
        }
    }

    pub fn flag(self, on: bool) -> bool {
        on || self.0 == 13
    }

    fn endpoints(bytes: &mut [u8; RECORD]) {
        for end in bytes[29..69].chunks_mut(5).filter(|end| end[1] == 0) {
            end[3] = 0;
        }
    }

    /// What ours is built from.
    pub fn record(self, bytes: &mut [u8; RECORD]) {
        match self.0 {
            14 => Self::endpoints(bytes),
            15 => bytes[13] ^= 1,
            20 => bytes[16] = bytes[16].saturating_sub(1),
            16 => bytes[77..89].iter_mut().filter(|length| **length == 32).for_each(|length| *length = 31),
            _ => {}
        }
    }
}
