//! The bus under the Rust: it hands out one event at a time, and writes what it is told as a trace entry.

use crate::event::*;
use crate::ours::Kept;
use std::cell::{Cell, UnsafeCell};
use usb_device::bus::{PollResult, UsbBus};
use usb_device::endpoint::{EndpointAddress, EndpointType};
use usb_device::{Result, UsbDirection, UsbError};

/// What the bus and the class share: the event, the entry, and what was seen of the device from outside.
pub struct Wire {
    event: Cell<*const Event>,
    entry: Cell<*mut Entry>,
    actions: Cell<usize>,
    reads: Cell<u32>,
    halts: Cell<u32>,
    /// The next stall is a request's own, and not the pipe's: the class saw SET_FEATURE or CLEAR_FEATURE of a halt.
    pub named: Cell<bool>,
    /// An address that is not set yet.
    pub pending: Cell<bool>,
    /// The bytes of a tile answer that no taken write sent; an empty one counts 1.
    pub tile: Cell<usize>,
    data: UnsafeCell<[u8; 128]>,
    held: Cell<Option<usize>>,
    /// OUT data was completed in this step.
    pub fresh: Cell<bool>,
}

// One thread drives a device; usb-device asks for Sync all the same.
unsafe impl Sync for Wire {}

impl Wire {
    pub fn new() -> Self {
        Wire {
            event: Cell::new(std::ptr::null()),
            entry: Cell::new(std::ptr::null_mut()),
            actions: Cell::new(0),
            reads: Cell::new(0),
            halts: Cell::new(0),
            named: Cell::new(false),
            pending: Cell::new(false),
            tile: Cell::new(0),
            data: UnsafeCell::new([0; 128]),
            held: Cell::new(None),
            fresh: Cell::new(false),
        }
    }

    /// The event and the entry have to live until the next call of `lend`, or until nobody polls any more.
    #[inline]
    pub fn lend(&self, event: &Event, entry: &mut Entry) {
        *entry = [0; ENTRY];
        self.event.set(event);
        self.entry.set(entry);
        self.actions.set(0);
        self.reads.set(0);
        self.fresh.set(false);
    }

    #[inline]
    fn event(&self) -> &Event {
        unsafe { &*self.event.get() }
    }

    #[inline]
    #[allow(clippy::mut_from_ref)]
    fn entry(&self) -> &mut Entry {
        unsafe { &mut *self.entry.get() }
    }

    #[inline]
    fn tell(&self, code: u8, argument: u8) {
        let slot = ACTIONS + 2 * self.actions.get();
        assert!(slot < WRITTEN, "a sixth action in one step");
        self.entry()[slot] = code;
        self.entry()[slot + 1] = argument;
        self.actions.set(self.actions.get() + 1);
    }

    /// A bit in one of the masks of the other endpoints: place 2 for SETUP, 4 for OUT, 6 for IN.
    #[inline]
    pub fn report(&self, place: usize, endpoint: usize) {
        self.entry()[place + endpoint / 8] |= 1 << (endpoint % 8);
    }

    /// The OUT data of the last accepted SETUP, as the class got it.
    pub fn data(&self) -> Option<&[u8]> {
        let data = unsafe { &*self.data.get() };
        self.held.get().map(|held| &data[..held])
    }

    pub fn hold(&self, data: &[u8]) {
        let room = unsafe { &mut *self.data.get() };
        room[..data.len()].copy_from_slice(data);
        self.held.set(Some(data.len()));
        self.fresh.set(true);
    }

    fn sent(&self, count: usize) {
        if self.tile.get() != 0 {
            self.tile.set(self.tile.get().saturating_sub(count.max(1)));
        }
    }

    pub fn kept(&self, state: u8, wakeup: bool, powered: bool) -> Kept {
        Kept { state, wakeup, powered, halts: self.halts.get() & !0x1_0000 }
    }
}

pub fn halt_bit(address: u8) -> u32 {
    1 << (address & 15 | (address & 0x80) >> 3)
}

/// What an event is to the crate.
#[inline]
pub fn polled(event: &Event) -> PollResult {
    match event[0] {
        NOTHING => PollResult::None,
        RESET => PollResult::Reset,
        SUSPEND => PollResult::Suspend,
        RESUME => PollResult::Resume,
        _ => PollResult::Data { ep_out: word(event, 4), ep_in_complete: word(event, 6), ep_setup: word(event, 8) },
    }
}

/// What the one read of an event gives.
#[inline]
pub fn received(event: &Event, room: &mut [u8]) -> Result<usize> {
    let bytes = packet(event);
    match event[1] {
        WOULD_BLOCK => Err(UsbError::WouldBlock),
        FAULT => Err(UsbError::InvalidState),
        _ if bytes.len() > room.len() => Err(UsbError::BufferOverflow),
        _ => {
            room[..bytes.len()].copy_from_slice(bytes);
            Ok(bytes.len())
        }
    }
}

pub struct Bus<'a, const QUIRK: bool>(pub &'a Wire);

impl<const QUIRK: bool> UsbBus for Bus<'_, QUIRK> {
    const QUIRK_SET_ADDRESS_BEFORE_STATUS: bool = QUIRK;

    fn alloc_ep(
        &mut self,
        _: UsbDirection,
        address: Option<EndpointAddress>,
        _: EndpointType,
        _: u16,
        _: u8,
    ) -> Result<EndpointAddress> {
        address.ok_or(UsbError::InvalidEndpoint)
    }

    fn enable(&mut self) {}

    fn reset(&self) {
        self.0.tell(3, 0);
        self.0.halts.set(0);
        self.0.pending.set(false);
        self.0.held.set(None);
    }

    fn set_device_address(&self, address: u8) {
        self.0.tell(ADDRESS, address);
        self.0.pending.set(false);
    }

    #[inline]
    fn write(&self, _: EndpointAddress, bytes: &[u8]) -> Result<usize> {
        let refused = self.0.event()[2] == 1;
        self.0.tell(if refused { REFUSED } else { WRITE }, bytes.len() as u8);
        self.0.entry()[WRITTEN..WRITTEN + bytes.len()].copy_from_slice(bytes);
        if refused {
            return Err(UsbError::WouldBlock);
        }
        self.0.sent(bytes.len());
        Ok(bytes.len())
    }

    #[inline]
    fn read(&self, _: EndpointAddress, room: &mut [u8]) -> Result<usize> {
        let event = self.0.event();
        self.0.reads.set(self.0.reads.get() + 1);
        assert!(self.0.reads.get() == 1, "a second read in one step");
        let count = received(event, room)?;
        if event[8] & 1 != 0 && count == 8 {
            self.0.held.set(None);
        }
        Ok(count)
    }

    fn set_stalled(&self, address: EndpointAddress, stalled: bool) {
        let address = u8::from(address);
        match (self.0.named.take(), address, stalled) {
            (true, _, true) => self.0.tell(HALT, address),
            (true, _, false) => self.0.tell(UNHALT, address),
            (_, 0, false) => self.0.tell(UNSTALL_OUT, 0),
            (_, 0x80, false) => self.0.tell(UNSTALL_IN, 0),
            (_, 0, true) => self.0.tell(STALL_OUT, 0),
            (_, _, true) => self.0.tell(STALL_IN, 0),
            _ => unreachable!("the pipe knows endpoint 0 alone"),
        }
        let bit = halt_bit(address);
        self.0.halts.set(if stalled { self.0.halts.get() | bit } else { self.0.halts.get() & !bit });
    }

    fn is_stalled(&self, address: EndpointAddress) -> bool {
        self.0.halts.get() & halt_bit(address.into()) != 0
    }

    fn suspend(&self) {
        self.0.tell(2, 0);
    }

    fn resume(&self) {
        self.0.tell(1, 0);
    }

    #[inline]
    fn poll(&self) -> PollResult {
        polled(self.0.event())
    }
}
