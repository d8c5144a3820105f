//! The port's calls, by the two archives: `loader` is the product, `probe` shows what the product's calls leave inside.

use crate::check::padded;
use crate::flat::{FlatAddress, ADDRESS};
use crate::kiss;
use crate::lent::{self, Between, Lent};
use crate::reasons::Why;

#[link(name = "loader", kind = "static")]
extern "C" {
    fn ax25_decode(input: *const u8, input_len: usize) -> u32;
    fn ax25_decode_old_capture(input: *const u8, input_len: usize) -> u32;
    fn ax25_canonical(input: *const u8, input_len: usize) -> u32;
    fn ax25_reason(input: *const u8, input_len: usize, mode: u32, number: *mut u32, place: *mut usize) -> u32;
    fn ax25_captures(input: *const u8, input_len: usize, mode: u32, records: *mut CaptureRecord, count: usize);
    fn ax25_reencoded_length(input: *const u8, input_len: usize) -> usize;
    fn ax25_reencode(input: *const u8, input_len: usize, output: *mut u8, output_len: usize) -> u32;
    fn ax25_relay(callsign: *const u8, callsign_len: usize, ssid: u8, frame: *mut u8, frame_len: usize) -> u32;
    fn ax25_kiss_read(
        input: *const u8,
        input_len: usize,
        output: *mut u8,
        output_len: usize,
        port: *mut u8,
        length: *mut usize,
    ) -> u32;
    fn ax25_kiss_write(
        port: u8,
        input: *const u8,
        input_len: usize,
        output: *mut u8,
        output_len: usize,
        length: *mut usize,
    ) -> u32;
    fn ax25_kiss_feed(stream: *mut State, piece: *const u8, piece_len: usize, packet: *mut Packet) -> usize;
    fn ax25_link_offer(link: *mut Link, frame: *const u8, frame_len: usize) -> u32;
}

#[link(name = "probe", kind = "static")]
extern "C" {
    fn probe_decode(
        mode: u32,
        input: *const u8,
        input_len: usize,
        record: *mut u8,
        record_len: usize,
        places: *mut usize,
        places_len: usize,
    ) -> u32;
    fn probe_decode_old(
        mode: u32,
        input: *const u8,
        input_len: usize,
        record: *mut u8,
        record_len: usize,
        places: *mut usize,
        places_len: usize,
    ) -> u32;
    fn probe_encode(
        mode: u32,
        record: *const u8,
        record_len: usize,
        info: *const u8,
        info_len: usize,
        out: *mut u8,
        out_len: usize,
        length: *mut usize,
        length_len: usize,
    ) -> u32;
    fn probe_again(given: *const u8, given_len: usize, record: *mut u8, record_len: usize) -> u32;
    fn probe_from_parts(callsign: *const u8, callsign_len: usize, ssid: u8, address: *mut u8, address_len: usize) -> u32;
    fn probe_from_str(text: *const u8, text_len: usize, address: *mut u8, address_len: usize) -> u32;
    fn probe_print(
        address: *const u8,
        address_len: usize,
        out: *mut u8,
        out_len: usize,
        length: *mut usize,
        length_len: usize,
    ) -> u32;
    fn probe_simple_ui(
        source: *const u8,
        source_len: usize,
        destination: *const u8,
        destination_len: usize,
        record: *mut u8,
        record_len: usize,
    ) -> u32;
    fn probe_default(record: *mut u8, record_len: usize) -> u32;
    fn probe_hops(record: *const u8, record_len: usize, numbers: *mut usize, numbers_len: usize) -> u32;
    fn probe_same_station(one: *const u8, one_len: usize, other: *const u8, other_len: usize) -> u32;
    fn probe_content(mode: u32, input: *const u8, input_len: usize, content: *mut u8, content_len: usize) -> u32;
    fn probe_content_encode(
        mode: u32,
        content: *const u8,
        content_len: usize,
        info: *const u8,
        info_len: usize,
        out: *mut u8,
        out_len: usize,
        length: *mut usize,
        length_len: usize,
    ) -> u32;
}

/// The mode in which sequence numbers are taken modulo 8. The Rust has no other, so nothing here is read or written in the long mode.
const SHORT: u32 = 0;

/// C's `struct ax25_kiss_stream`.
#[repr(C)]
#[derive(Clone, Copy, PartialEq)]
pub struct State {
    pub data: [u8; kiss::LONGEST],
    pub length: u16,
    pub port: u8,
    pub phase: u8,
    pub dropped: u16,
}

/// Zeros.
pub const FRESH: State = State { data: [0; kiss::LONGEST], length: 0, port: 0, phase: 0, dropped: 0 };

impl State {
    /// The data that there is, or all octets where the length is beyond them.
    pub fn held(&self) -> &[u8] {
        self.data.get(..self.length.into()).unwrap_or(&self.data)
    }
}

/// C's `struct ax25_kiss_packet`.
#[repr(C)]
#[derive(Clone, Copy, PartialEq, Debug)]
pub struct Packet {
    pub ready: u32,
    pub port: u32,
    pub length: usize,
}

/// C's `struct ax25_capture`.
#[repr(C)]
#[derive(Clone, Copy, PartialEq, Debug)]
pub struct CaptureRecord {
    pub start: usize,
    pub length: usize,
    pub number: u32,
    pub canonical: u16,
    pub kind: u16,
}

/// It has no padding.
const _: () = assert!(std::mem::size_of::<CaptureRecord>() == 24);

/// C's `struct ax25_link`. What it has for each of the two stations, first `a` and then `b`, and the four counts stand in arrays here.
#[repr(C)]
#[derive(Clone, Copy, PartialEq, Debug)]
pub struct Link {
    pub stations: [FlatAddress; 2],
    pub state: u32,
    pub expected: [u32; 2],
    pub moved: [u32; 2],
    /// In the order of `links::VERDICTS`.
    pub counts: [u32; 4],
    pub offered: u32,
}

/// How many octets it has, without padding.
pub const LINK: usize = 56;
const _: () = assert!(std::mem::size_of::<Link>() == LINK);

impl Link {
    /// As it lies in memory.
    pub fn octets(&self) -> Vec<u8> {
        let numbers = [&[self.state][..], &self.expected, &self.moved, &self.counts, &[self.offered]].concat();
        self.stations.concat().into_iter().chain(numbers.into_iter().flat_map(u32::to_le_bytes)).collect()
    }

    pub fn of(octets: &[u8; LINK]) -> Link {
        let station = |which: usize| padded(&octets[ADDRESS * which..ADDRESS * (which + 1)]);
        let number = |which: usize| u32::from_le_bytes(padded(&octets[2 * ADDRESS + 4 * which..][..4]));
        Link {
            stations: [0, 1].map(station),
            state: number(0),
            expected: [1, 2].map(number),
            moved: [3, 4].map(number),
            counts: [5, 6, 7, 8].map(number),
            offered: number(9),
        }
    }
}

/// What one call of `ax25_kiss_feed` gave: how many octets it took, the packet, and its data where it is ready.
#[derive(PartialEq)]
pub struct Fed {
    pub taken: usize,
    pub packet: Packet,
    pub data: Vec<u8>,
}

/// The port's two decoders.
#[derive(Clone, Copy, Debug)]
pub enum Entry {
    /// The one that all other calls read by.
    Decoder,
    /// The one that skips leading nulls, for captures that were taken before they were refused (document 02, M-108).
    OldCapture,
}

/// The number of places that both give: start, end, length, and info's start and length.
pub const PLACES: usize = 5;
/// The number of numbers that `probe_hops` gives: hop set, hops used, due place.
pub const HOPS: usize = 3;

/// What a packet holds before a call: nothing that a call may give.
const UNWRITTEN: Packet = Packet { ready: 0xA5A5_A5A5, port: 0x5A5A_5A5A, length: 0xC3C3_C3C3_C3C3_C3C3 };
/// The same of a number and a place.
const UNWRITTEN_NUMBER: u32 = 0xA5A5_A5A5;
const UNWRITTEN_PLACE: usize = 0x5A5A_5A5A_5A5A_5A5A;

pub struct Port {
    input: Lent<u8>,
    second: Lent<u8>,
    output: Lent<u8>,
    sizes: Lent<usize>,
    records: Lent<CaptureRecord>,
    fault: Option<&'static str>,
}

impl Port {
    pub fn new() -> Port {
        Port {
            input: lent::octets(),
            second: lent::octets(),
            output: lent::octets(),
            sizes: lent::sizes(),
            records: lent::records(),
            fault: None,
        }
    }

    /// The first fault since this was last asked: something was written that should not have been.
    pub fn fault(&mut self) -> Option<&'static str> {
        self.fault.take()
    }

    /// Whether the output of the last call starts with `octets` and everything else in and around it is as it was.
    pub fn output_is(&self, octets: &[u8]) -> bool {
        self.output.is(octets)
    }

    /// Whether the output after its first `count` octets, and around it, is as it was.
    pub fn rest_is_as_it_was(&self, count: usize) -> bool {
        self.output.written_only(count)
    }

    pub fn output(&self) -> &[u8] {
        self.output.items()
    }

    /// The same of the lent sizes of the last call.
    pub fn sizes_are(&self, sizes: &[usize]) -> bool {
        self.sizes.is(sizes)
    }

    pub fn sizes(&self) -> &[usize] {
        self.sizes.items()
    }

    fn see(&mut self, holds: bool, fault: &'static str) {
        if !holds && self.fault.is_none() {
            self.fault = Some(fault);
        }
    }

    fn see_input(&mut self, input: &[u8]) {
        let holds = self.input.is(input);
        self.see(holds, "the input, or an octet beside it, was written");
    }

    fn see_second(&mut self, second: &[u8]) {
        let holds = self.second.is(second);
        self.see(holds, "the second input, or an octet beside it, was written");
    }

    pub fn number(&mut self, entry: Entry, input: &[u8]) -> u32 {
        self.input.hold(input);
        let call = match entry {
            Entry::Decoder => ax25_decode,
            Entry::OldCapture => ax25_decode_old_capture,
        };
        let number = unsafe { call(self.input.ptr(), self.input.len()) };
        self.see_input(input);
        number
    }

    pub fn canonical(&mut self, input: &[u8]) -> u32 {
        self.input.hold(input);
        let canonical = unsafe { ax25_canonical(self.input.ptr(), self.input.len()) };
        self.see_input(input);
        canonical
    }

    pub fn reason(&mut self, input: &[u8]) -> Why {
        self.input.hold(input);
        let (mut number, mut place) = (Between::new(UNWRITTEN_NUMBER), Between::new(UNWRITTEN_PLACE));
        let answer =
            unsafe { ax25_reason(self.input.ptr(), self.input.len(), SHORT, number.mut_ptr(), place.mut_ptr()) };
        self.see_input(input);
        self.see(number.holds() && place.holds(), "something beside the number or the place was written");
        Why { answer, number: number.item, place: place.item }
    }

    /// Fills these records, which are then in `records`.
    pub fn captures(&mut self, buffer: &[u8], records: &[CaptureRecord]) {
        self.input.hold(buffer);
        self.records.hold(records);
        unsafe { ax25_captures(self.input.ptr(), self.input.len(), SHORT, self.records.mut_ptr(), records.len()) };
        self.see_input(buffer);
        let holds = self.records.written_only(records.len());
        self.see(holds, "something beside the records was written");
    }

    /// The records as the last call left them.
    pub fn records(&self) -> &[CaptureRecord] {
        self.records.items()
    }

    pub fn reencoded_length(&mut self, input: &[u8]) -> usize {
        self.input.hold(input);
        let length = unsafe { ax25_reencoded_length(self.input.ptr(), self.input.len()) };
        self.see_input(input);
        length
    }

    /// Leaves its octets in the output.
    pub fn reencode(&mut self, input: &[u8], room: usize) -> u32 {
        self.input.hold(input);
        self.output.room(room);
        let number = unsafe { ax25_reencode(self.input.ptr(), self.input.len(), self.output.mut_ptr(), room) };
        self.see_input(input);
        number
    }

    /// The frame is lent as the output, which holds it before and after.
    pub fn relay(&mut self, callsign: &[u8], ssid: u8, frame: &[u8]) -> u32 {
        self.input.hold(callsign);
        self.output.hold(frame);
        let number =
            unsafe { ax25_relay(self.input.ptr(), self.input.len(), ssid, self.output.mut_ptr(), self.output.len()) };
        self.see_input(callsign);
        number
    }

    /// The number, the port and the length; the data is in the output. The port is lent as the second input.
    pub fn kiss_read(&mut self, packet: &[u8], room: usize) -> (u32, u8, usize) {
        self.input.hold(packet);
        self.output.room(room);
        self.second.room(1);
        self.sizes.room(1);
        let number = unsafe {
            ax25_kiss_read(
                self.input.ptr(),
                self.input.len(),
                self.output.mut_ptr(),
                room,
                self.second.mut_ptr(),
                self.sizes.mut_ptr(),
            )
        };
        self.see_input(packet);
        (number, self.one_port(), self.one_size())
    }

    fn one_port(&mut self) -> u8 {
        let holds = self.second.written_only(1);
        self.see(holds, "something beside the port was written");
        self.second.items()[0]
    }

    /// The number and the length; the packet is in the output.
    pub fn kiss_write(&mut self, port: u8, data: &[u8], room: usize) -> (u32, usize) {
        self.input.hold(data);
        self.output.room(room);
        self.sizes.room(1);
        let number = unsafe {
            ax25_kiss_write(port, self.input.ptr(), self.input.len(), self.output.mut_ptr(), room, self.sizes.mut_ptr())
        };
        self.see_input(data);
        (number, self.one_size())
    }

    /// Feeds a piece until all of it is taken; a call that takes nothing of it, or more than there is, is the last one.
    pub fn kiss_feed(&mut self, state: &mut State, piece: &[u8]) -> Vec<Fed> {
        self.input.hold(piece);
        let (mut calls, mut at) = (Vec::new(), 0);
        loop {
            let (mut lent, mut packet) = (Between::new(*state), Between::new(UNWRITTEN));
            let from = self.input.ptr().wrapping_add(at);
            let taken = unsafe { ax25_kiss_feed(lent.mut_ptr(), from, piece.len() - at, packet.mut_ptr()) };
            self.see(lent.holds() && packet.holds(), "something beside the state or the packet was written");
            *state = lent.item;
            let packet = packet.item;
            let data = if packet.ready == 0 { &[] } else { state.data.get(..packet.length).unwrap_or(&state.data) };
            calls.push(Fed { taken, packet, data: data.to_vec() });
            at = at.saturating_add(taken);
            if taken == 0 || at >= piece.len() {
                break;
            }
        }
        self.see_input(piece);
        calls
    }

    /// The number, and the record as it is left.
    pub fn link_offer(&mut self, link: &Link, frame: &[u8]) -> (u32, Link) {
        self.input.hold(frame);
        let mut lent = Between::new(*link);
        let number = unsafe { ax25_link_offer(lent.mut_ptr(), self.input.ptr(), self.input.len()) };
        self.see_input(frame);
        self.see(lent.holds(), "something beside the link was written");
        (number, lent.item)
    }

    /// Leaves the record in the output and the places in the sizes.
    pub fn decode(&mut self, entry: Entry, input: &[u8], room: usize, places: usize) -> u32 {
        self.input.hold(input);
        self.output.room(room);
        self.sizes.room(places);
        let call = match entry {
            Entry::Decoder => probe_decode,
            Entry::OldCapture => probe_decode_old,
        };
        let number =
            unsafe { call(SHORT, self.input.ptr(), self.input.len(), self.output.mut_ptr(), room, self.sizes.mut_ptr(), places) };
        self.see_input(input);
        number
    }

    /// Leaves its octets in the output and their length in the sizes.
    pub fn encode_into(&mut self, record: &[u8], info: &[u8], room: usize, sizes: usize) -> u32 {
        self.input.hold(record);
        self.second.hold(info);
        self.output.room(room);
        self.sizes.room(sizes);
        let number = unsafe {
            probe_encode(
                SHORT,
                self.input.ptr(),
                self.input.len(),
                self.second.ptr(),
                self.second.len(),
                self.output.mut_ptr(),
                room,
                self.sizes.mut_ptr(),
                sizes,
            )
        };
        self.see_input(record);
        self.see_second(info);
        number
    }

    /// The number and the length; the octets are in the output.
    pub fn encode(&mut self, record: &[u8], info: &[u8], room: usize) -> (u32, usize) {
        let number = self.encode_into(record, info, room, 1);
        (number, self.one_size())
    }

    /// Leaves the record in the output.
    pub fn again(&mut self, record: &[u8], room: usize) -> u32 {
        self.input.hold(record);
        self.output.room(room);
        let number = unsafe { probe_again(self.input.ptr(), self.input.len(), self.output.mut_ptr(), room) };
        self.see_input(record);
        number
    }

    fn one_size(&mut self) -> usize {
        let holds = self.sizes.written_only(1);
        self.see(holds, "something beside the length was written");
        self.sizes.items()[0]
    }

    /// Leaves the address in the output.
    pub fn from_parts(&mut self, callsign: &[u8], ssid: u8, room: usize) -> u32 {
        self.input.hold(callsign);
        self.output.room(room);
        let number =
            unsafe { probe_from_parts(self.input.ptr(), self.input.len(), ssid, self.output.mut_ptr(), room) };
        self.see_input(callsign);
        number
    }

    /// Leaves the address in the output.
    pub fn from_str(&mut self, text: &[u8], room: usize) -> u32 {
        self.input.hold(text);
        self.output.room(room);
        let number = unsafe { probe_from_str(self.input.ptr(), self.input.len(), self.output.mut_ptr(), room) };
        self.see_input(text);
        number
    }

    /// Leaves the text in the output and its length in the sizes.
    pub fn print_into(&mut self, address: &[u8], room: usize, sizes: usize) -> u32 {
        self.input.hold(address);
        self.output.room(room);
        self.sizes.room(sizes);
        let number = unsafe {
            probe_print(self.input.ptr(), self.input.len(), self.output.mut_ptr(), room, self.sizes.mut_ptr(), sizes)
        };
        self.see_input(address);
        number
    }

    /// The number and the length; the text is in the output.
    pub fn print(&mut self, address: &[u8], room: usize) -> (u32, usize) {
        let number = self.print_into(address, room, 1);
        (number, self.one_size())
    }

    /// Leaves the record in the output.
    pub fn simple_ui(&mut self, source: &[u8], destination: &[u8], room: usize) -> u32 {
        self.input.hold(source);
        self.second.hold(destination);
        self.output.room(room);
        let number = unsafe {
            probe_simple_ui(
                self.input.ptr(),
                self.input.len(),
                self.second.ptr(),
                self.second.len(),
                self.output.mut_ptr(),
                room,
            )
        };
        self.see_input(source);
        self.see_second(destination);
        number
    }

    /// Leaves the record in the output.
    pub fn default(&mut self, room: usize) -> u32 {
        self.output.room(room);
        let number = unsafe { probe_default(self.output.mut_ptr(), room) };
        number
    }

    /// Leaves the hop set, the hops used and the due place in the sizes.
    pub fn hops(&mut self, record: &[u8], sizes: usize) -> u32 {
        self.input.hold(record);
        self.sizes.room(sizes);
        let number = unsafe { probe_hops(self.input.ptr(), self.input.len(), self.sizes.mut_ptr(), sizes) };
        self.see_input(record);
        number
    }

    pub fn same_station(&mut self, one: &[u8], other: &[u8]) -> u32 {
        self.input.hold(one);
        self.second.hold(other);
        let same =
            unsafe { probe_same_station(self.input.ptr(), self.input.len(), self.second.ptr(), self.second.len()) };
        self.see_input(one);
        self.see_second(other);
        same
    }

    /// Leaves the flat content in the output.
    pub fn content(&mut self, input: &[u8], room: usize) -> u32 {
        self.input.hold(input);
        self.output.room(room);
        let number = unsafe { probe_content(SHORT, self.input.ptr(), self.input.len(), self.output.mut_ptr(), room) };
        self.see_input(input);
        number
    }

    /// Leaves its octets in the output and their length in the sizes.
    pub fn encode_content_into(&mut self, content: &[u8], info: &[u8], room: usize, sizes: usize) -> u32 {
        self.input.hold(content);
        self.second.hold(info);
        self.output.room(room);
        self.sizes.room(sizes);
        let number = unsafe {
            probe_content_encode(
                SHORT,
                self.input.ptr(),
                self.input.len(),
                self.second.ptr(),
                self.second.len(),
                self.output.mut_ptr(),
                room,
                self.sizes.mut_ptr(),
                sizes,
            )
        };
        self.see_input(content);
        self.see_second(info);
        number
    }

    /// The number and the length; the octets are in the output.
    pub fn encode_content(&mut self, content: &[u8], info: &[u8], room: usize) -> (u32, usize) {
        let number = self.encode_content_into(content, info, room, 1);
        (number, self.one_size())
    }
}

/// Two buffers in one piece of storage, so that one ends where the other starts, or a few octets before: where a compiler
/// copies many octets at a time it looks at the distance, and takes another way for buffers that are close.
pub struct Beside {
    pub gap: usize,
    pub output_first: bool,
}

impl Beside {
    /// Where the input and the output start.
    fn places(&self, input: usize, output: usize) -> (usize, usize) {
        if self.output_first {
            (output + self.gap, 0)
        } else {
            (0, input + self.gap)
        }
    }
}

impl Port {
    /// Runs a call on an input and an output of this room side by side; whether `octets` are then at the output's start, and
    /// all else is as it was.
    fn side_by_side(
        &mut self,
        input: &[u8],
        room: usize,
        octets: &[u8],
        beside: &Beside,
        call: impl FnOnce(*const u8, *mut u8) -> u32,
    ) -> (u32, bool) {
        let (input_at, output_at) = beside.places(input.len(), room);
        let mut image = vec![0x5A; input.len() + room + beside.gap];
        image[input_at..input_at + input.len()].copy_from_slice(input);
        self.output.hold(&image);
        let storage = self.output.mut_ptr();
        // Both places are inside the storage.
        let number = unsafe { call(storage.add(input_at), storage.add(output_at)) };
        image[output_at..output_at + octets.len()].copy_from_slice(octets);
        (number, self.output.is(&image))
    }

    pub fn reencode_beside(&mut self, input: &[u8], room: usize, octets: &[u8], beside: &Beside) -> (u32, bool) {
        self.side_by_side(input, room, octets, beside, |from, to| unsafe { ax25_reencode(from, input.len(), to, room) })
    }

    pub fn encode_beside(&mut self, record: &[u8], info: &[u8], room: usize, octets: &[u8], beside: &Beside) -> (u32, bool) {
        let mut length = [usize::MAX];
        let (number, holds) = self.side_by_side(info, room, octets, beside, |from, to| unsafe {
            probe_encode(SHORT, record.as_ptr(), record.len(), from, info.len(), to, room, length.as_mut_ptr(), 1)
        });
        (number, holds && length[0] == octets.len())
    }

    /// Reading a packet close to the room for its data; the port that is owed is held too.
    pub fn kiss_read_beside(&mut self, packet: &[u8], room: usize, port: u8, data: &[u8], beside: &Beside) -> (u32, bool) {
        let (mut given, mut length) = (u8::MAX, usize::MAX);
        let (number, holds) = self.side_by_side(packet, room, data, beside, |from, to| unsafe {
            ax25_kiss_read(from, packet.len(), to, room, &mut given, &mut length)
        });
        (number, holds && given == port && length == data.len())
    }

    pub fn kiss_write_beside(&mut self, port: u8, data: &[u8], room: usize, packet: &[u8], beside: &Beside) -> (u32, bool) {
        let mut length = usize::MAX;
        let (number, holds) = self.side_by_side(data, room, packet, beside, |from, to| unsafe {
            ax25_kiss_write(port, from, data.len(), to, room, &mut length)
        });
        (number, holds && length == packet.len())
    }
}

/// The loader's calls as they are, for timing, and for a list of records that is too long to be copied.
pub mod bare {
    pub fn captures(buffer: &[u8], records: &mut [super::CaptureRecord]) {
        unsafe { super::ax25_captures(buffer.as_ptr(), buffer.len(), super::SHORT, records.as_mut_ptr(), records.len()) }
    }

    pub fn decode(input: &[u8]) -> u32 {
        unsafe { super::ax25_decode(input.as_ptr(), input.len()) }
    }

    pub fn decode_old_capture(input: &[u8]) -> u32 {
        unsafe { super::ax25_decode_old_capture(input.as_ptr(), input.len()) }
    }

    pub fn canonical(input: &[u8]) -> u32 {
        unsafe { super::ax25_canonical(input.as_ptr(), input.len()) }
    }

    pub fn reason(input: &[u8], number: &mut u32, place: &mut usize) -> u32 {
        unsafe { super::ax25_reason(input.as_ptr(), input.len(), super::SHORT, number, place) }
    }

    pub fn reencoded_length(input: &[u8]) -> usize {
        unsafe { super::ax25_reencoded_length(input.as_ptr(), input.len()) }
    }

    pub fn reencode(input: &[u8], output: &mut [u8]) -> u32 {
        unsafe { super::ax25_reencode(input.as_ptr(), input.len(), output.as_mut_ptr(), output.len()) }
    }

    pub fn relay(callsign: &[u8], ssid: u8, frame: &mut [u8]) -> u32 {
        unsafe { super::ax25_relay(callsign.as_ptr(), callsign.len(), ssid, frame.as_mut_ptr(), frame.len()) }
    }

    pub fn read(input: &[u8], record: &mut [u8], places: &mut [usize]) -> u32 {
        unsafe { super::probe_decode(super::SHORT, input.as_ptr(), input.len(), record.as_mut_ptr(), record.len(), places.as_mut_ptr(), places.len()) }
    }

    pub fn encode(record: &[u8], info: &[u8], output: &mut [u8], length: &mut [usize]) -> u32 {
        unsafe {
            super::probe_encode(
                super::SHORT,
                record.as_ptr(),
                record.len(),
                info.as_ptr(),
                info.len(),
                output.as_mut_ptr(),
                output.len(),
                length.as_mut_ptr(),
                length.len(),
            )
        }
    }
}
