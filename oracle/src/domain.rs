//! Document 01's domain of equal runs.

use crate::bus::Wire;
use crate::event::*;

/// What was seen of the Rust from outside, as far as the domain and a host ask for it.
#[derive(Clone, Copy)]
pub struct Seen {
    pub entry: Entry,
    pub pending: bool,
    pub tile: bool,
}

impl Seen {
    pub fn new() -> Self {
        Seen { entry: [0; ENTRY], pending: false, tile: false }
    }

    pub fn of(wire: &Wire, entry: Entry) -> Self {
        Seen { entry, pending: wire.pending.get(), tile: wire.tile.get() != 0 }
    }

    /// An address is pending, or a tile answer unfinished or abandoned.
    pub fn blocked(&self) -> bool {
        self.pending || self.tile
    }
}

/// GET_STATUS of endpoint 80h, or OUT of more than the buffer.
fn asks_too_much(setup: &[u8]) -> bool {
    let status = setup[0] == 0x82 && setup[1] == 0 && setup[4] & 0x8f == 0x80;
    status || setup[0] & 0x80 == 0 && word(setup, 6) > 128
}

/// Whether the domain has this event after what was seen.
pub fn inside(event: &Event, seen: &Seen) -> bool {
    match (event[0], setup_packet(event)) {
        (RESET, _) => !seen.blocked(),
        (_, Some(setup)) => setup.len() == 8 && !seen.blocked() && !asks_too_much(setup),
        _ => true,
    }
}
