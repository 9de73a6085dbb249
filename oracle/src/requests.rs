//! SETUP packets: all standard requests with usual and odd fields, tile reads of every start, requests of no kind.

use crate::drive::Case;
use crate::rng::Rng;

/// Recipient and value: remote wakeup, an endpoint's halt, and what is neither.
const FEATURES: [(u8, u16); 20] = [
    (0, 1),
    (0, 1),
    (0, 1),
    (0, 1),
    (0, 1),
    (2, 0),
    (2, 0),
    (2, 0),
    (2, 0),
    (2, 0),
    (2, 0),
    (2, 0),
    (1, 0),
    (0, 0),
    (2, 1),
    (0, 2),
    (0, 257),
    (2, 256),
    (3, 0),
    (31, 1),
];

pub struct Requests {
    pub packet: usize,
    tiles: u16,
    languages: Vec<u16>,
    endpoints: Vec<u16>,
}

pub fn setup(kind: u8, request: u8, value: u16, index: u16, length: u16) -> [u8; 8] {
    let ([v0, v1], [i0, i1], [l0, l1]) = (value.to_le_bytes(), index.to_le_bytes(), length.to_le_bytes());
    [kind, request, v0, v1, i0, i1, l0, l1]
}

impl Requests {
    pub fn new(case: &Case) -> Self {
        Requests {
            packet: case.record.packet as usize,
            tiles: (case.book.len() / 16) as u16,
            languages: case.record.languages.iter().map(|(id, _)| *id).collect(),
            endpoints: case.record.endpoints.iter().map(|end| end.address as u16).collect(),
        }
    }

    /// wLength of an IN request: about each size, about the buffer, none, all.
    fn in_length(&self, rng: &mut Rng) -> u16 {
        let size = self.packet as u16;
        let near = size * (1 + rng.below(4) as u16) + rng.below(3) as u16 - 1;
        let small = rng.below(64) as u16;
        let any = rng.word() >> rng.below(12);
        rng.pick(&[0, 1, 2, 8, 9, 16, 18, 64, 127, 128, 129, 255, near, near, near, small, small, any])
    }

    /// wLength of an OUT request: mostly none, up to the buffer.
    fn out_length(&self, rng: &mut Rng) -> u16 {
        let any = rng.below(129) as u16;
        let size = self.packet as u16;
        rng.pick(&[0, 0, 0, 0, 0, 0, 0, 0, 0, 0, 1, any, any, size, size - 1, size + 1, 127, 128])
    }

    /// An endpoint, with bits that are not looked at.
    fn endpoint(&self, rng: &mut Rng) -> u16 {
        let any = rng.word() & 0x8f;
        let own = if self.endpoints.is_empty() { any } else { rng.pick(&self.endpoints) };
        let noise = rng.word() & 0xff70;
        rng.pick(&[own, own, any, 0, 0x80, own | noise])
    }

    fn language(&self, rng: &mut Rng) -> u16 {
        let any = rng.pick(&[0x0409, 0, 0xffff, 0x0c0c]);
        if self.languages.is_empty() || rng.once_in(6) {
            any
        } else {
            rng.pick(&self.languages)
        }
    }

    fn tile(&self, rng: &mut Rng) -> [u8; 8] {
        let inside = rng.below(self.tiles.max(1) as usize) as u16;
        let last = self.tiles.wrapping_sub(1);
        let start = rng.pick(&[0, inside, inside, inside, inside, last, last, self.tiles, self.tiles + 1, 0xffff]);
        let index = if rng.once_in(16) { rng.pick(&[1, 0x0100, 0xffff]) } else { 0 };
        setup(0xc0, 1, start, index, self.in_length(rng))
    }

    fn descriptor(&self, rng: &mut Rng) -> [u8; 8] {
        let kind = rng.pick(&[1, 1, 1, 1, 2, 2, 2, 2, 3, 3, 3, 3, 3, 3, 3, 3, 0, 4, 5, 6, 7, 11, 15, 16, 255u16]);
        let number = rng.pick(&[0, 0, 1, 1, 2, 2, 3, 3, 4, 255u16]);
        let who = if rng.once_in(24) { rng.pick(&[0x81, 0x82, 0x83]) } else { 0x80 };
        setup(who, 6, kind << 8 | number, self.language(rng), self.in_length(rng))
    }

    fn other_get(&self, rng: &mut Rng) -> [u8; 8] {
        let request = rng.pick(&[0, 0, 0, 0, 0, 0, 8, 8, 8, 10, 10, 10, 12, 1, 5, 9]);
        let (kind, index) = match rng.below(5) {
            0 => (0x80, rng.pick(&[0, 1, 0xffff])),
            1 => (0x81, rng.pick(&[0, 1, 255, 256, 0x0101])),
            4 => (rng.pick(&[0x83, 0x84, 0x9f]), 0),
            _ => (0x82, self.endpoint(rng)),
        };
        let value = rng.pick(&[0, 0, 1, 0xffff]);
        let length = rng.pick(&[1, 2, 2, 0, 64, 0xffff]);
        setup(kind, request, value, index, length)
    }

    fn feature(&self, rng: &mut Rng) -> [u8; 8] {
        let (kind, value) = rng.pick(&FEATURES);
        setup(kind, rng.pick(&[1, 3]), value, self.endpoint(rng), self.out_length(rng))
    }

    fn set(&self, rng: &mut Rng) -> [u8; 8] {
        let index = rng.pick(&[0, 0, 0, 1, 255, 256]);
        let length = self.out_length(rng);
        match rng.below(12) {
            0..=2 => setup(0, 5, rng.pick(&[1, 2, 5, 64, 100, 126, 127, 0, 128, 255, 261, 0xffff]), index, length),
            3..=5 => setup(0, 9, rng.pick(&[0, 1, 1, 1, 2, 256, 257]), index, length),
            6 | 7 => setup(1, 11, rng.pick(&[0, 0, 1, 255, 256]), index, length),
            8 => setup(rng.pick(&[0, 1, 2]), rng.pick(&[7, 12, 4, 2, 0, 6, 8]), rng.word(), index, length),
            9 | 10 => setup(rng.pick(&[0x20, 0x40, 0x41, 0x60, 0x7f]), rng.pick(&[1, 2, 9, 5]), rng.word(), index, length),
            _ => setup(rng.pick(&[1, 2, 3, 0x1f]), rng.pick(&[5, 9, 11]), rng.pick(&[0, 1, 5]), index, length),
        }
    }

    fn foreign_get(&self, rng: &mut Rng) -> [u8; 8] {
        setup(
            rng.pick(&[0xa0, 0xc0, 0xc1, 0xc3, 0xdf, 0xe0]),
            rng.pick(&[0, 1, 2, 6]),
            rng.pick(&[0, 1]),
            rng.pick(&[0, 1]),
            self.in_length(rng),
        )
    }

    pub fn setup(&self, rng: &mut Rng) -> [u8; 8] {
        let mut bytes = match rng.below(16) {
            0..=3 => self.tile(rng),
            4..=6 => self.descriptor(rng),
            7 | 8 => self.other_get(rng),
            9 | 10 => self.feature(rng),
            11..=13 => self.set(rng),
            14 => self.foreign_get(rng),
            _ => rng.next().to_le_bytes(),
        };
        if rng.once_in(32) {
            bytes[rng.below(8)] ^= 1 << rng.below(8);
        }
        bytes
    }
}
