//! Device records: as the 833 bytes that ours is built from, and as what the Rust's builder is told.

use crate::ours::RECORD;
use crate::rng::Rng;

#[derive(Clone, Debug)]
pub struct Endpoint {
    pub address: u8,
    pub interrupt: bool,
    pub size: u8,
    pub interval: u8,
    pub interface: u8,
}

/// Each language's identifier and strings, as Rust's own text.
pub type Texts = Vec<(u16, [Option<String>; 3])>;

pub type Strings = [Option<Vec<u16>>; 3];

#[derive(Clone, Debug)]
pub struct Record {
    pub packet: u8,
    pub codes: [u8; 3],
    pub vendor: u16,
    pub product: u16,
    pub release: u16,
    pub power: u8,
    pub powered: bool,
    pub wakeup: bool,
    pub quirk: bool,
    pub interfaces: Vec<[u8; 3]>,
    pub endpoints: Vec<Endpoint>,
    pub languages: Vec<(u16, Strings)>,
}

fn units(text: &str) -> Option<Vec<u16>> {
    Some(text.encode_utf16().collect())
}

/// Notes 4 to 6's device, of a packet size.
pub fn pan(packet: u8, quirk: bool) -> Record {
    Record {
        packet,
        codes: [0; 3],
        vendor: 0x1234,
        product: 0x0138,
        release: 0x0100,
        power: 50,
        powered: false,
        wakeup: false,
        quirk,
        interfaces: vec![[0xff, 0, 0]],
        endpoints: vec![Endpoint { address: 0x81, interrupt: false, size: 64, interval: 0, interface: 0 }],
        languages: vec![(0x0409, [units("Pan"), units("Pan"), None])],
    }
}

/// Strings that are easily got wrong: none, empty, one unit, 31 units, pairs of surrogates up to the end, any mix.
fn string(rng: &mut Rng) -> Option<Vec<u16>> {
    match rng.below(7) {
        0 => None,
        1 => Some(vec![]),
        2 => Some(vec![0x50]),
        3 => Some((0..31).map(|_| 1 + rng.word() % 0xd7ff).collect()),
        4 => units(&"\u{1f9a9}".repeat(15)),
        5 => units(&("x".to_string() + &"\u{10ffff}".repeat(15))),
        _ => {
            let any = |_| char::from_u32(rng.next() as u32 & 0x1f_ffff).unwrap_or('\u{ffff}');
            units(&(0..15).map(any).collect::<String>())
        }
    }
}

fn endpoints(rng: &mut Rng, interfaces: usize, count: usize) -> Vec<Endpoint> {
    let mut list: Vec<Endpoint> = vec![];
    while list.len() < count {
        let address = 1 + rng.below(15) as u8 | rng.pick(&[0, 0x80]);
        if list.iter().all(|end| end.address != address) {
            let size = rng.pick(&[1, 7, 8, 63, 64, 33]);
            list.push(Endpoint {
                address,
                interrupt: rng.once_in(2),
                size,
                interval: rng.byte(),
                interface: rng.below(interfaces) as u8,
            });
        }
    }
    list
}

/// The first language has every string that another has: the Rust takes the numbers of strings from it alone.
fn languages(rng: &mut Rng, count: usize) -> Vec<(u16, Strings)> {
    let mut list: Vec<(u16, Strings)> = vec![];
    while list.len() < count {
        let any = rng.word();
        let id = rng.pick(&[0x0409, 0x0407, 0x0000, 0xffff, any]);
        if list.iter().any(|(other, _)| *other == id) {
            continue;
        }
        let mut strings = [string(rng), string(rng), string(rng)];
        if let Some((_, first)) = list.first() {
            (0..3).filter(|i| first[*i].is_none()).for_each(|i| strings[i] = None);
        }
        list.push((id, strings));
    }
    list
}

impl Record {
    pub fn random(rng: &mut Rng, packet: u8, quirk: bool) -> Record {
        let counts = [1 + rng.below(4), rng.below(9), rng.below(5)];
        Record::with_counts(rng, packet, quirk, counts)
    }

    /// With so many interfaces, endpoints and languages.
    pub fn with_counts(rng: &mut Rng, packet: u8, quirk: bool, counts: [usize; 3]) -> Record {
        Record {
            packet,
            codes: [rng.byte(), rng.byte(), rng.byte()],
            vendor: rng.word(),
            product: rng.word(),
            release: rng.word(),
            power: rng.pick(&[0, 1, 50, 249, 250]),
            powered: rng.once_in(2),
            wakeup: rng.once_in(2),
            quirk,
            interfaces: (0..counts[0]).map(|_| [rng.byte(), rng.byte(), rng.byte()]).collect(),
            endpoints: endpoints(rng, counts[0], counts[1]),
            languages: languages(rng, counts[2]),
        }
    }

    fn put_lists(&self, bytes: &mut [u8; RECORD]) {
        for (i, codes) in self.interfaces.iter().enumerate() {
            bytes[17 + 3 * i..20 + 3 * i].copy_from_slice(codes);
        }
        for (i, end) in self.endpoints.iter().enumerate() {
            let entry = [end.address, end.interrupt as u8, end.size, end.interval, end.interface];
            bytes[29 + 5 * i..34 + 5 * i].copy_from_slice(&entry);
        }
    }

    fn put_strings(&self, bytes: &mut [u8; RECORD]) {
        for (i, (id, strings)) in self.languages.iter().enumerate() {
            bytes[69 + 2 * i..71 + 2 * i].copy_from_slice(&id.to_le_bytes());
            for (j, text) in strings.iter().enumerate() {
                let Some(text) = text else { continue };
                bytes[77 + 3 * i + j] = text.len() as u8 + 1;
                for (k, unit) in text.iter().enumerate() {
                    let at = 89 + 62 * (3 * i + j) + 2 * k;
                    bytes[at..at + 2].copy_from_slice(&unit.to_le_bytes());
                }
            }
        }
    }

    pub fn bytes(&self) -> [u8; RECORD] {
        let mut bytes = [0; RECORD];
        bytes[..4].copy_from_slice(&[self.packet, self.codes[0], self.codes[1], self.codes[2]]);
        for (at, number) in [(4, self.vendor), (6, self.product), (8, self.release)] {
            bytes[at..at + 2].copy_from_slice(&number.to_le_bytes());
        }
        bytes[10..14].copy_from_slice(&[self.power, self.powered as u8, self.wakeup as u8, self.quirk as u8]);
        let counts = [self.interfaces.len(), self.endpoints.len(), self.languages.len()];
        bytes[14..17].copy_from_slice(&counts.map(|count| count as u8));
        self.put_lists(&mut bytes);
        self.put_strings(&mut bytes);
        bytes
    }

    /// The strings as the Rust takes them. Broken UTF-16, which it cannot be given, becomes the replacement character.
    pub fn texts(&self) -> Texts {
        let text = |units: &Option<Vec<u16>>| units.as_ref().map(|units| String::from_utf16_lossy(units));
        self.languages.iter().map(|(id, [a, b, c])| (*id, [text(a), text(b), text(c)])).collect()
    }

    pub fn told(&self) -> String {
        let (i, e, l) = (self.interfaces.len(), self.endpoints.len(), self.languages.len());
        format!("packet size {}, quirk {}, {i} interfaces, {e} endpoints, {l} languages", self.packet, self.quirk)
    }
}

/// A book of so many records; no two of its records have the same bytes.
pub fn book(records: usize) -> &'static [u8] {
    let mut rng = Rng::new(records as u64 + 1);
    let mut bytes = vec![0; 16 * records];
    rng.fill(&mut bytes);
    for (i, tile) in bytes.chunks_mut(16).enumerate() {
        tile[..2].copy_from_slice(&(i as u16).to_le_bytes());
    }
    bytes.leak()
}
