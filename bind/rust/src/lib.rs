//! The mast's USB device core. A caller holds a device as [`STATE`] bytes and lends them to each call; nothing is kept between
//! calls and nothing is allocated. Any bytes get an answer, and a refused call changes no lent byte.
//!
//! The layouts of a record, an event record and a trace entry are those of `include/mast.h`.
#![no_std]

/// The bytes of the record that a device is built from.
pub const RECORD: usize = 833;

/// The bytes of a device.
pub const STATE: usize = 1005;

/// The bytes of an event record.
pub const EVENT: usize = 80;

/// The bytes of a trace entry.
pub const ENTRY: usize = 82;

/// Why the core said no, by document 01's number, 1 to 12.
#[derive(Clone, Copy, Debug, PartialEq, Eq)]
pub struct Refusal(pub u8);

/// How many event records a run took, and what stopped it before their end or the trace's.
#[derive(Clone, Copy, Debug, PartialEq, Eq)]
pub struct Ran {
    pub count: usize,
    pub refusal: Option<Refusal>,
}

// A slice is a pointer and a length, as the core's own slices are.
mod core_calls {
    extern "C" {
        pub fn mast_size() -> usize;
        pub fn mast_build(record: *const u8, record_len: usize, book: usize, state: *mut u8, state_len: usize) -> u8;
        pub fn mast_run(
            state: *mut u8,
            state_len: usize,
            book: *const u8,
            book_len: usize,
            events: *const u8,
            events_len: usize,
            trace: *mut u8,
            trace_len: usize,
        ) -> usize;
        pub fn mast_data(state: *const u8, state_len: usize, room: *mut u8, room_len: usize) -> usize;
        pub fn mast_set_self_powered(state: *mut u8, state_len: usize, on: bool) -> u8;
    }
}

fn refusal(number: u8) -> Option<Refusal> {
    match number {
        0 => None,
        n => Some(Refusal(n)),
    }
}

fn done(number: u8) -> Result<(), Refusal> {
    refusal(number).map_or(Ok(()), Err)
}

// An answer is 16 times a count, and the number of a refusal.
fn parted(answer: usize) -> Ran {
    Ran {
        count: answer >> 4,
        refusal: refusal((answer & 15) as u8),
    }
}

// In each call below the slices are valid for their lengths, and those that are written overlap no other: Rust's own rules.

/// [`STATE`], as the core has it.
pub fn size() -> usize {
    unsafe { core_calls::mast_size() }
}

/// Makes a device of a record, for a book of so many bytes, and writes it into the state. Refusals 1 to 4, then 9 where the state
/// is not [`STATE`] long.
pub fn build(record: &[u8], book: usize, state: &mut [u8]) -> Result<(), Refusal> {
    done(unsafe { core_calls::mast_build(record.as_ptr(), record.len(), book, state.as_mut_ptr(), state.len()) })
}

/// Takes the device through the event records, and writes a trace entry for each to the front of the trace. It stops before an
/// event record that is refused (9, 5 or 10), at the end of the events, and before the trace is full.
pub fn run(state: &mut [u8], book: &[u8], events: &[u8], trace: &mut [u8]) -> Ran {
    parted(unsafe {
        core_calls::mast_run(
            state.as_mut_ptr(),
            state.len(),
            book.as_ptr(),
            book.len(),
            events.as_ptr(),
            events.len(),
            trace.as_mut_ptr(),
            trace.len(),
        )
    })
}

/// Hands out the OUT data of the last accepted SETUP to the front of the room, and says how many bytes. Refusals 9, 7, 8.
pub fn data(state: &[u8], room: &mut [u8]) -> Result<usize, Refusal> {
    let handed = parted(unsafe { core_calls::mast_data(state.as_ptr(), state.len(), room.as_mut_ptr(), room.len()) });
    handed.refusal.map_or(Ok(handed.count), Err)
}

/// Sets whether the device is self-powered now. Refusal 9.
pub fn set_self_powered(state: &mut [u8], on: bool) -> Result<(), Refusal> {
    done(unsafe { core_calls::mast_set_self_powered(state.as_mut_ptr(), state.len(), on) })
}
