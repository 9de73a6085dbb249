//! Counts of what the streams did, so that a reader sees what was reached.

use crate::event::*;

const STAGES: [&str; 9] =
    ["Idle", "DataIn", "DataInZlp", "DataInLast", "StatusOut", "CompleteOut", "DataOut", "StatusIn", "Error"];

const CLASSES: [&str; 15] = [
    "nothing",
    "reset",
    "suspend",
    "resume",
    "SETUP of IN",
    "SETUP of OUT",
    "SETUP of OUT with data",
    "SETUP that cannot be read",
    "empty OUT",
    "OUT",
    "OUT that would block",
    "OUT with a fault",
    "IN-complete, write taken",
    "IN-complete, write refused",
    "other endpoints",
];

/// Which of the classes an event is of.
fn class_of(event: &Event) -> usize {
    match (event[0], event[8] & 1, event[4] & 1, event[6] & 1) {
        (DATA, 1, ..) => match accepted(event) {
            None => 7,
            Some(setup) if setup[0] & 0x80 != 0 => 4,
            Some(setup) => 5 + (word(setup, 6) > 0) as usize,
        },
        (DATA, _, 1, _) => match (event[1], event[3]) {
            (READ_PACKET, 0) => 8,
            (READ_PACKET, _) => 9,
            (read, _) => 9 + read as usize,
        },
        (DATA, _, _, 1) => 12 + event[2] as usize,
        (DATA, ..) => 14,
        (kind, ..) => kind as usize,
    }
}

#[derive(Default, Clone)]
pub struct Tally {
    pub events: u64,
    pub streams: u64,
    pub flags: u64,
    kinds: [u64; 5],
    setups: u64,
    in_data: u64,
    early: u64,
    actions: [u64; 13],
    /// Stage by class of event, of the first event of each slice; awake and suspended.
    met: [[[u64; 15]; 9]; 2],
}

impl Tally {
    pub fn add(&mut self, events: &[Event], entries: &[Entry]) {
        self.events += events.len() as u64;
        for (event, entry) in events.iter().zip(entries) {
            self.kinds[event[0] as usize] += 1;
            self.setups += accepted(event).is_some() as u64;
            for action in entry[ACTIONS..WRITTEN].chunks(2) {
                self.actions[action[0] as usize] += 1;
            }
            self.in_data += entry[ACTIONS..WRITTEN].chunks(2).filter(|a| a[0] == WRITE).map(|a| a[1] as u64).sum::<u64>();
            self.early +=
                (event[0] == DATA && event[4] & 1 != 0 && event[8] & 1 == 0 && event[1] == READ_PACKET && event[3] == 0) as u64;
        }
    }

    /// Notes the stage (by its code in a state's bytes) that a slice's first event came in.
    pub fn meet(&mut self, stage: u8, suspended: bool, event: &Event) {
        // an IN request is decided in the event of its SETUP, so that nothing comes in CompleteIn, which has code 4
        let stage = stage as usize - (stage > 4) as usize;
        self.met[suspended as usize][stage][class_of(event)] += 1;
    }

    fn print_met(&self) {
        for (how, met) in ["awake", "suspended"].iter().zip(&self.met) {
            let count = met.iter().flatten().filter(|count| **count > 0).count();
            let all = STAGES.len() * CLASSES.len();
            println!("{how}: {count} of {all} pairs of a stage and an event met, in the first events of slices");
            if all - count > 12 {
                continue;
            }
            for (stage, counts) in STAGES.iter().zip(met) {
                for (class, _) in CLASSES.iter().zip(counts).filter(|(_, count)| **count == 0) {
                    println!("  not met: {class} in {stage}");
                }
            }
        }
    }

    pub fn print(&self) {
        let [nothing, reset, suspend, resume, data] = self.kinds;
        println!(
            "{} streams, {} events: {data} data, {nothing} nothing, {reset} reset, {suspend} suspend, {resume} resume",
            self.streams, self.events
        );
        println!(
            "{} accepted SETUPs, {} empty OUT packets, {} settings of the self-powered flag",
            self.setups, self.early, self.flags
        );
        let at = |code: u8| self.actions[code as usize];
        println!(
            "{} packets taken with {} bytes, {} refused, {} stalls, {} unstalls of OUT",
            at(WRITE),
            self.in_data,
            at(REFUSED),
            at(STALL_OUT),
            at(UNSTALL_OUT)
        );
        self.print_met();
        println!("{} halts set, {} cleared, {} addresses set", at(HALT), at(UNHALT), at(ADDRESS));
    }
}
