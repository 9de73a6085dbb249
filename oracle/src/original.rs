//! The Rust: usb-device's own device over the test bus, with a class that declares the record and serves the tile book.

use crate::bus::{Bus, Wire};
use crate::event::{Entry, Event};
use crate::ours::Kept;
use crate::record::{Endpoint, Record, Texts};
use usb_device::class_prelude::*;
use usb_device::control::{Recipient, Request, RequestType};
use usb_device::device::{StringDescriptors, UsbDevice, UsbDeviceBuilder, UsbRev, UsbVidPid};
use usb_device::LangID;

enum Pipe<'a, B: UsbBus> {
    In(EndpointIn<'a, B>),
    Out(EndpointOut<'a, B>),
}

struct Face<'a, B: UsbBus> {
    number: InterfaceNumber,
    codes: [u8; 3],
    pipes: Vec<Pipe<'a, B>>,
}

pub struct Mast<'a, B: UsbBus> {
    faces: Vec<Face<'a, B>>,
    book: &'static [u8],
    /// Where what the class sees is noted, if anybody asks.
    wire: Option<&'a Wire>,
}

fn pipe<'a, B: UsbBus>(alloc: &'a UsbBusAllocator<B>, end: &Endpoint) -> Pipe<'a, B> {
    let kind = if end.interrupt { EndpointType::Interrupt } else { EndpointType::Bulk };
    let (address, size) = (Some(end.address.into()), end.size as u16);
    if end.address & 0x80 != 0 {
        Pipe::In(alloc.alloc(address, kind, size, end.interval).expect("the test bus gives every endpoint"))
    } else {
        Pipe::Out(alloc.alloc(address, kind, size, end.interval).expect("the test bus gives every endpoint"))
    }
}

fn faces<'a, B: UsbBus>(alloc: &'a UsbBusAllocator<B>, record: &Record) -> Vec<Face<'a, B>> {
    let ends = |i| record.endpoints.iter().filter(move |end| end.interface == i);
    let face = |(i, codes): (usize, &[u8; 3])| Face {
        number: alloc.interface(),
        codes: *codes,
        pipes: ends(i as u8).map(|end| pipe(alloc, end)).collect(),
    };
    record.interfaces.iter().enumerate().map(face).collect()
}

impl<B: UsbBus> Mast<'_, B> {
    fn tiles(&self, request: &Request) -> Option<&'static [u8]> {
        let asked = (request.request_type, request.recipient, request.request) == (RequestType::Vendor, Recipient::Device, 1);
        let start = 16 * request.value as usize;
        (asked && request.index == 0 && start < self.book.len()).then(|| &self.book[start..])
    }

    fn report(&self, place: usize, address: EndpointAddress) {
        if let Some(wire) = self.wire {
            wire.report(place, address.index());
        }
    }
}

impl<B: UsbBus> UsbClass<B> for Mast<'_, B> {
    fn get_configuration_descriptors(&self, writer: &mut DescriptorWriter) -> usb_device::Result<()> {
        for face in &self.faces {
            let [class, subclass, protocol] = face.codes;
            writer.interface(face.number, class, subclass, protocol)?;
            for pipe in &face.pipes {
                match pipe {
                    Pipe::In(end) => writer.endpoint(end)?,
                    Pipe::Out(end) => writer.endpoint(end)?,
                }
            }
        }
        Ok(())
    }

    fn control_in(&mut self, xfer: ControlIn<B>) {
        if let Some(tiles) = self.tiles(xfer.request()) {
            // before the call, since the first packet is written in it
            if let Some(wire) = self.wire {
                wire.tile.set(tiles.len().min(xfer.request().length as usize).max(1));
            }
            let _ = xfer.accept_with_static(tiles);
        }
    }

    fn control_out(&mut self, xfer: ControlOut<B>) {
        let (Some(wire), request) = (self.wire, xfer.request()) else { return };
        if request.length > 0 {
            wire.hold(xfer.data());
        }
        if request.request_type != RequestType::Standard {
            return;
        }
        match (request.recipient, request.request, request.value) {
            (Recipient::Endpoint, Request::SET_FEATURE | Request::CLEAR_FEATURE, 0) => wire.named.set(true),
            (Recipient::Device, Request::SET_ADDRESS, 1..=127) => wire.pending.set(!B::QUIRK_SET_ADDRESS_BEFORE_STATUS),
            _ => {}
        }
    }

    fn endpoint_setup(&mut self, address: EndpointAddress) {
        self.report(2, address);
    }

    fn endpoint_out(&mut self, address: EndpointAddress) {
        self.report(4, address);
    }

    fn endpoint_in_complete(&mut self, address: EndpointAddress) {
        self.report(6, address);
    }
}

/// A device of the Rust, whatever its bus.
pub trait Original {
    fn step(&mut self, event: &Event, entry: &mut Entry);
    fn run(&mut self, events: &[Event], trace: &mut [Entry]);
    fn set_self_powered(&mut self, on: bool);
    fn kept(&self) -> Kept;
    fn wire(&self) -> &Wire;
}

struct Live<'a, B: UsbBus> {
    device: UsbDevice<'a, B>,
    class: Mast<'a, B>,
    wire: &'a Wire,
}

impl<B: UsbBus> Live<'_, B> {
    #[inline(always)]
    fn advance(&mut self, event: &Event, entry: &mut Entry) {
        self.wire.lend(event, entry);
        entry[1] = self.device.poll(&mut [&mut self.class]) as u8;
        entry[0] = self.device.state() as u8;
    }
}

impl<B: UsbBus> Original for Live<'_, B> {
    fn step(&mut self, event: &Event, entry: &mut Entry) {
        self.advance(event, entry);
    }

    fn run(&mut self, events: &[Event], trace: &mut [Entry]) {
        for (event, entry) in events.iter().zip(trace) {
            self.advance(event, entry);
        }
    }

    fn set_self_powered(&mut self, on: bool) {
        self.device.set_self_powered(on);
    }

    fn kept(&self) -> Kept {
        self.wire.kept(self.device.state() as u8, self.device.remote_wakeup_enabled(), self.device.self_powered())
    }

    fn wire(&self) -> &Wire {
        self.wire
    }
}

fn languages(texts: &Texts) -> Vec<StringDescriptors<'_>> {
    texts.iter().map(|(id, strings)| described(*id, strings)).collect()
}

fn described(id: u16, strings: &[Option<String>; 3]) -> StringDescriptors<'_> {
    let mut all = StringDescriptors::new(LangID::from(id));
    if let Some(text) = &strings[0] {
        all = all.manufacturer(text);
    }
    if let Some(text) = &strings[1] {
        all = all.product(text);
    }
    if let Some(text) = &strings[2] {
        all = all.serial_number(text);
    }
    all
}

/// A device of the Rust and its class, on any bus.
pub fn built<'a, B: UsbBus>(
    alloc: &'a UsbBusAllocator<B>,
    record: &Record,
    texts: &'a Texts,
    book: &'static [u8],
    wire: Option<&'a Wire>,
) -> (UsbDevice<'a, B>, Mast<'a, B>) {
    let class = Mast { faces: faces(alloc, record), book, wire };
    let device = UsbDeviceBuilder::new(alloc, UsbVidPid(record.vendor, record.product))
        .device_class(record.codes[0])
        .device_sub_class(record.codes[1])
        .device_protocol(record.codes[2])
        .device_release(record.release)
        .usb_rev(UsbRev::Usb200)
        .self_powered(record.powered)
        .supports_remote_wakeup(record.wakeup)
        .max_power(2 * record.power as usize)
        .and_then(|builder| builder.max_packet_size_0(record.packet))
        .and_then(|builder| builder.strings(&languages(texts)))
        .expect("the record is inside the limits")
        .build();
    (device, class)
}

fn with_bus<const QUIRK: bool, R>(record: &Record, book: &'static [u8], f: &mut dyn FnMut(&mut dyn Original) -> R) -> R {
    let (wire, texts) = (Wire::new(), record.texts());
    let alloc = UsbBusAllocator::new(Bus::<QUIRK>(&wire));
    let (device, class) = built(&alloc, record, &texts, book, Some(&wire));
    f(&mut Live { device, class, wire: &wire })
}

/// Calls `f` with a device of the Rust that is built from the record; its strings have to be whole UTF-16.
pub fn with<R>(record: &Record, book: &'static [u8], f: &mut dyn FnMut(&mut dyn Original) -> R) -> R {
    if record.quirk {
        with_bus::<true, R>(record, book, f)
    } else {
        with_bus::<false, R>(record, book, f)
    }
}
