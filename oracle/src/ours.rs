//! Ours, through the wrapper of `bind/rust` and the archive that `bind/archive` builds.

use crate::event::{Entry, Event};
use mast::Refusal;

pub use mast::{RECORD, STATE};
/// Where the 44 bytes begin that a device holds beside its record (crates/live_bytes/specs/Layout.antt).
pub const LIVE: usize = RECORD;

/// What both sides hold beside their pipes.
#[derive(Clone, Copy, PartialEq, Eq, Debug)]
pub struct Kept {
    pub state: u8,
    pub wakeup: bool,
    pub powered: bool,
    /// OUT at the endpoint's number, IN sixteen higher; bit 16, endpoint 80h, is left out.
    pub halts: u32,
}

pub struct Ours {
    pub state: [u8; STATE],
    book: &'static [u8],
}

/// A count and the number of a refusal.
pub type Answer = (usize, u8);

fn number(refusal: Option<Refusal>) -> u8 {
    refusal.map_or(0, |why| why.0)
}

impl Ours {
    /// Or the number of the refusal.
    pub fn build(record: &[u8; RECORD], book: &'static [u8]) -> Result<Ours, u8> {
        assert_eq!(mast::size(), STATE);
        let mut ours = Ours { state: [0; STATE], book };
        mast::build(record, book.len(), &mut ours.state).map_err(|why| why.0)?;
        Ok(ours)
    }

    pub fn run(&mut self, events: &[Event], trace: &mut [Entry]) -> Answer {
        debug_assert_eq!(events.len(), trace.len());
        let ran = mast::run(&mut self.state, self.book, events.as_flattened(), trace.as_flattened_mut());
        (ran.count, number(ran.refusal))
    }

    /// The OUT data, or nothing where it is refused with 7; another number is a difference, told as Err.
    pub fn data(&self) -> Result<Option<Vec<u8>>, u8> {
        let mut room = [0; 128];
        match mast::data(&self.state, &mut room) {
            Ok(count) => Ok(Some(room[..count].to_vec())),
            Err(Refusal(7)) => Ok(None),
            Err(why) => Err(why.0),
        }
    }

    pub fn set_self_powered(&mut self, on: bool) -> u8 {
        number(mast::set_self_powered(&mut self.state, on).err())
    }

    pub fn kept(&self) -> Kept {
        let live = &self.state[LIVE..];
        let others = u32::from_le_bytes([live[34], live[35], live[36], live[37]]);
        Kept { state: live[31], wakeup: live[32] == 1, powered: live[33] == 1, halts: others & !0x1_0001 | live[1] as u32 }
    }
}
