//! Event records of 80 bytes and trace entries of 82, as include/mast.h lays them out.

pub const EVENT: usize = 80;
pub const ENTRY: usize = 82;
pub const PACKET: usize = 64;
pub const ACTIONS: usize = 8;
pub const WRITTEN: usize = 18;

pub type Event = [u8; EVENT];
pub type Entry = [u8; ENTRY];

pub const NOTHING: u8 = 0;
pub const RESET: u8 = 1;
pub const SUSPEND: u8 = 2;
pub const RESUME: u8 = 3;
pub const DATA: u8 = 4;
/// Not an event: the owner sets the self-powered flag to false or true between two events.
pub const FLAG_OFF: u8 = 5;
pub const FLAG_ON: u8 = 6;

pub const READ_PACKET: u8 = 0;
pub const WOULD_BLOCK: u8 = 1;
pub const FAULT: u8 = 2;

pub const UNSTALL_OUT: u8 = 4;
pub const UNSTALL_IN: u8 = 5;
pub const STALL_OUT: u8 = 6;
pub const STALL_IN: u8 = 7;
pub const HALT: u8 = 8;
pub const UNHALT: u8 = 9;
pub const ADDRESS: u8 = 10;
pub const WRITE: u8 = 11;
pub const REFUSED: u8 = 12;

pub fn bus_event(kind: u8) -> Event {
    let mut event = [0; EVENT];
    event[0] = kind;
    event
}

/// What a Data event says; a record is made of it.
#[derive(Clone, Copy)]
pub struct Data {
    pub read: u8,
    pub refused: bool,
    pub out: u16,
    pub done: u16,
    pub setup: u16,
    pub length: usize,
    pub packet: [u8; PACKET],
}

impl Data {
    pub fn new() -> Self {
        Data { read: WOULD_BLOCK, refused: false, out: 0, done: 0, setup: 0, length: 0, packet: [0; PACKET] }
    }

    pub fn with_packet(mut self, bytes: &[u8]) -> Self {
        self.read = READ_PACKET;
        self.length = bytes.len();
        self.packet = [0; PACKET];
        self.packet[..bytes.len()].copy_from_slice(bytes);
        self
    }

    pub fn setup(bytes: &[u8]) -> Self {
        Data { setup: 1, ..Data::new().with_packet(bytes) }
    }

    pub fn out(bytes: &[u8]) -> Self {
        Data { out: 1, ..Data::new().with_packet(bytes) }
    }

    pub fn done() -> Self {
        Data { done: 1, ..Data::new() }
    }

    pub fn refused(mut self) -> Self {
        self.refused = true;
        self
    }

    pub fn event(&self) -> Event {
        let mut event = bus_event(DATA);
        event[1] = self.read;
        event[2] = self.refused as u8;
        event[3] = self.length as u8;
        event[4..6].copy_from_slice(&self.out.to_le_bytes());
        event[6..8].copy_from_slice(&self.done.to_le_bytes());
        event[8..10].copy_from_slice(&self.setup.to_le_bytes());
        event[16..].copy_from_slice(&self.packet);
        event
    }
}

pub fn word(bytes: &[u8], at: usize) -> u16 {
    u16::from_le_bytes([bytes[at], bytes[at + 1]])
}

pub fn packet(event: &Event) -> &[u8] {
    &event[16..16 + event[3] as usize]
}

/// The packet that a SETUP is read from, if the event has one.
pub fn setup_packet(event: &Event) -> Option<&[u8]> {
    (event[0] == DATA && event[8] & 1 != 0 && event[1] == READ_PACKET).then(|| packet(event))
}

/// The eight bytes of a SETUP that will be accepted.
pub fn accepted(event: &Event) -> Option<&[u8]> {
    setup_packet(event).filter(|bytes| bytes.len() == 8)
}

pub fn has_action(entry: &Entry, code: u8) -> bool {
    entry[ACTIONS..WRITTEN].chunks(2).any(|action| action[0] == code)
}

/// The entry without its `ui`: the Rust unstalls OUT only, so document 01 leaves each out of the comparison.
pub fn without_unstall_in(entry: &mut Entry) {
    if let Some(slot) = (0..5).find(|slot| entry[ACTIONS + 2 * slot] == UNSTALL_IN) {
        entry.copy_within(ACTIONS + 2 * slot + 2..WRITTEN, ACTIONS + 2 * slot);
        entry[WRITTEN - 2..WRITTEN].fill(0);
    }
}

pub fn hex(bytes: &[u8]) -> String {
    bytes.iter().map(|byte| format!("{byte:02x}")).collect()
}

fn masks(event: &Event) -> String {
    let names = [("setup", 8), ("out", 4), ("in", 6)];
    let named = names.iter().filter(|(_, at)| word(event, *at) != 0);
    named.map(|(name, at)| format!(" {name} {:04x}", word(event, *at))).collect()
}

fn read_of(event: &Event) -> String {
    match event[1] {
        WOULD_BLOCK => " would-block".into(),
        FAULT => " fault".into(),
        _ => format!(" packet [{}]", hex(packet(event))),
    }
}

/// An event for a person.
pub fn told(event: &Event) -> String {
    match event[0] {
        NOTHING => "nothing".into(),
        RESET => "reset".into(),
        SUSPEND => "suspend".into(),
        RESUME => "resume".into(),
        DATA => format!("data{}{}{}", masks(event), read_of(event), if event[2] == 1 { " write refused" } else { "" }),
        FLAG_OFF => "(self-powered: false)".into(),
        _ => "(self-powered: true)".into(),
    }
}

fn action(code: u8, argument: u8, entry: &Entry) -> String {
    let bytes = &entry[WRITTEN..WRITTEN + (argument as usize).min(PACKET)];
    match code {
        1..=7 => ["rs", "su", "rb", "uo", "ui", "so", "si"][code as usize - 1].into(),
        HALT => format!("h{argument:02x}"),
        UNHALT => format!("c{argument:02x}"),
        ADDRESS => format!("a{argument:02x}"),
        WRITE => format!("w{}", hex(bytes)),
        REFUSED => format!("x{}", hex(bytes)),
        _ => format!("?{code}"),
    }
}

/// A trace entry for a person, as the replay's lines have it, with answer and masks where they say something.
pub fn line(entry: &Entry) -> String {
    let mut line = ["D", "A", "C", "S"].get(entry[0] as usize).unwrap_or(&"?").to_string();
    for slot in (ACTIONS..WRITTEN).step_by(2).filter(|slot| entry[*slot] != 0) {
        line += &format!(" {}", action(entry[slot], entry[slot + 1], entry));
    }
    for (name, at) in [("setup", 2), ("out", 4), ("in", 6)] {
        if word(entry, at) != 0 {
            line += &format!(" {name}={:04x}", word(entry, at));
        }
    }
    line + if entry[1] == 1 { " yes" } else { "" }
}
