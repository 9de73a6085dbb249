//! The shortest stream that still shows a difference, as far as leaving events out and clearing bytes leads.

use crate::drive::{replay, Case, Found, Slices};
use crate::event::*;
use crate::mutant::Mutant;

/// A stream to be shortened, and how it is replayed.
pub struct Shrink<'a> {
    pub slices: Slices,
    pub case: &'a Case,
    pub mutant: Mutant,
}

impl<'a> Shrink<'a> {
    /// Event by event if that shows the difference too, since then no slice has to keep its place.
    pub fn new(case: &'a Case, events: &[Event], mutant: Mutant) -> Self {
        let single = Shrink { slices: Slices::Single, case, mutant };
        let slices = if single.shows(events) { Slices::Single } else { Slices::Varied };
        Shrink { slices, ..single }
    }

    fn shows(&self, events: &[Event]) -> bool {
        matches!(replay(self.slices, self.case, events, self.mutant), Found::Differs(..))
    }

    /// Leaves out runs of events, long ones first.
    fn leave_out(&self, events: &mut Vec<Event>) {
        let mut length = events.len().div_ceil(2);
        while length > 0 {
            let mut at = 0;
            while at < events.len() {
                let mut fewer = events.clone();
                fewer.drain(at..(at + length).min(events.len()));
                if self.shows(&fewer) {
                    *events = fewer;
                } else {
                    at += length;
                }
            }
            length /= 2;
        }
    }

    /// Clears what need not be there: the masks of other endpoints, the refusal of a write.
    fn clear(&self, events: &mut [Event]) {
        for i in 0..events.len() {
            for at in [2, 4, 5, 6, 7, 8, 9] {
                let kept = events[i];
                events[i][at] &= if at % 2 == 0 && at > 2 { 1 } else { 0 };
                if kept != events[i] && !self.shows(events) {
                    events[i] = kept;
                }
            }
        }
    }

    pub fn shorten(&self, events: &[Event]) -> Vec<Event> {
        let mut events = events.to_vec();
        self.leave_out(&mut events);
        self.clear(&mut events);
        self.leave_out(&mut events);
        events
    }
}
