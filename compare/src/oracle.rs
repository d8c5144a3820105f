//! The Rust's answers, by document 01's numbers.

use crate::domain::{self, RESERVED_BITS};
use crate::flat::{self, Flat, FlatAddress, PID_OCTET, REPEATERS, RESERVED};
use crate::port::PLACES;
use ax25::frame::{Address, AddressParseError, Ax25Frame, FrameContent, FrameParseError, UnknownContent};
use std::panic::catch_unwind;
use std::str::FromStr;

/// The Rust gave an answer that document 01 has no number for, or none at all. The port has no such numbers, so each of
/// these is a mismatch.
pub const INVALID_UTF8: u32 = 1001;
pub const ZERO_LENGTH: u32 = 1002;
pub const PANICKED: u32 = 1003;

/// What a number that is not document 01's stands for.
pub fn meaning(number: u32) -> &'static str {
    match number {
        INVALID_UTF8 => " (AddressInvalidUtf8: document 01 has no number for it)",
        ZERO_LENGTH => " (ContentZeroLength: document 01 has no number for it)",
        PANICKED => " (the Rust panicked)",
        _ => "",
    }
}

/// A refusal's number with its details: start, end, length.
#[derive(Clone, Copy, Debug, PartialEq)]
pub struct Refusal {
    pub number: u32,
    pub start: usize,
    pub end: usize,
    pub length: usize,
}

impl Refusal {
    /// The same where so many nulls stand before the octets, in the words of document 02's M-108: places are counted from the first of
    /// them, and 4's length is that of the whole.
    pub fn behind(self, nulls: usize) -> Refusal {
        match self.number {
            3 => Refusal { start: nulls + self.start, end: nulls + self.end, ..self },
            4 => Refusal { length: nulls + self.length, ..self },
            _ => self,
        }
    }
}

/// A refusal that has no details.
pub fn plain(number: u32) -> Refusal {
    Refusal { number, start: 0, end: 0, length: 0 }
}

pub fn read(input: &[u8]) -> Result<Ax25Frame, Refusal> {
    let answer = catch_unwind(|| Ax25Frame::from_bytes(input));
    #[cfg(feature = "faults")]
    let answer = answer.map(|read| crate::faults::misread_by_rust(read, input));
    match answer {
        Ok(answer) => answer.map_err(|error| refusal(&error)),
        Err(_) => Err(plain(PANICKED)),
    }
}

fn refusal(error: &FrameParseError) -> Refusal {
    match *error {
        FrameParseError::OnlyNullBytes => plain(1),
        FrameParseError::NoEndToAddressField => plain(2),
        FrameParseError::AddressFieldTooShort { start, end } => Refusal { number: 3, start, end, length: 0 },
        FrameParseError::FrameTooShort { len } => Refusal { number: 4, start: 0, end: 0, length: len },
        FrameParseError::MissingPidField => plain(5),
        FrameParseError::UnrecognisedSFieldType => plain(6),
        FrameParseError::UnrecognisedUFieldType => plain(7),
        FrameParseError::WrongSizeFrmrInfo => plain(8),
        FrameParseError::AddressInvalidUtf8 { .. } => plain(INVALID_UTF8),
        FrameParseError::ContentZeroLength => plain(ZERO_LENGTH),
    }
}

/// What stands in for a kind that the Rust does not know: RR, which has nothing behind its control octet.
const STAND_IN: u8 = 0x01;

/// What is owed to be read of an input, leading nulls skipped, which the Rust reads so: the same, but of a kind that the Rust does not know
/// (B9) a frame as `flat` has it. Its addresses and marks are those that the Rust reads where another kind stands in the place of this one;
/// its content is the input's own, without what follows a kind that has no info.
pub fn known(input: &[u8], rust: Result<Ax25Frame, Refusal>) -> Result<Ax25Frame, Refusal> {
    let (added, at) = match (domain::added_in(input), domain::control_of(input)) {
        (Some(added), Some((at, _))) => (added, at),
        _ => return rust,
    };
    let mut stood_in = input.to_vec();
    stood_in[at] = STAND_IN;
    let end = if flat::has_info(added.kind) { input.len() } else { at + 1 };
    let content = FrameContent::UnknownContent(UnknownContent { raw: input[at..end].to_vec() });
    read(&stood_in).map(|frame| Ax25Frame { content, ..frame })
}

/// All that a decoder owes.
pub struct Decode {
    pub number: u32,
    /// Start, end and length, which some refusals give, and info's start and length.
    pub places: [usize; PLACES],
    /// A refusal leaves none.
    pub record: Option<Flat>,
}

impl Decode {
    /// The octets that are left of the record.
    pub fn left(&self) -> &[u8] {
        self.record.as_ref().map_or(&[], |record| &record[..])
    }

    /// Info's octets.
    pub fn info<'a>(&self, input: &'a [u8]) -> &'a [u8] {
        let [_, _, _, start, length] = self.places;
        &input[start..start + length]
    }
}

/// What the entry for old captures owes: what is read where leading nulls are skipped, as the Rust does, and 9 for nine or more repeaters
/// (B1).
pub fn owed_of_old(input: &[u8], read: &Result<Ax25Frame, Refusal>) -> Decode {
    match read {
        _ if domain::repeaters(input) > REPEATERS => refused(plain(9)),
        Ok(frame) => accepted(input, frame),
        Err(refusal) => refused(*refusal),
    }
}

/// What the decoder owes, beside what is owed of an old capture: the same, but 10 where nulls stand before the frame (B8).
pub fn owed(input: &[u8], old: Decode) -> Decode {
    if domain::is_nulled(input) { refused(plain(10)) } else { old }
}

/// What is owed where this is read: info is the input's end, wherever the Rust copied it to.
pub fn accepted(input: &[u8], frame: &Ax25Frame) -> Decode {
    let info_len = flat::info_of(frame).map(<[u8]>::len);
    let info_start = info_len.map_or(0, |len| input.len() - len);
    Decode { number: 0, places: [0, 0, 0, info_start, info_len.unwrap_or(0)], record: Some(record(input, frame)) }
}

/// The record of an input that is read as this frame: what the frame does not hold is the input's own, the reserved bits and the
/// octet of a layer 3 identifier.
pub fn record(input: &[u8], frame: &Ax25Frame) -> Flat {
    flat::carrying(flat::of_frame(frame), domain::reserved_of(input), domain::pid_of(input))
}

fn refused(refusal: Refusal) -> Decode {
    Decode { number: refusal.number, places: [refusal.start, refusal.end, refusal.length, 0, 0], record: None }
}

/// What the port owes to write.
pub struct Written {
    pub octets: Vec<u8>,
    /// What the Rust wrote in the place of the one octet that is not the Rust's, where there is one (B6).
    pub masked: Option<u8>,
    /// The first octet of the Rust's with a reserved bit that is not set, where there is one: these bits are not the Rust's (B7).
    pub clear: Option<u8>,
}

/// What the port owes to write of a record that is read as this frame: the Rust's octets, with the record's own in the place of the
/// reserved bits of each group and of a layer 3 identifier, and no other bit changed.
pub fn written(frame: &Ax25Frame, record: &Flat) -> Written {
    let mut octets = frame.to_bytes();
    #[cfg(feature = "faults")]
    crate::faults::misspell_rust(&mut octets, record);
    let masked = flat::is_layer_3(record).then(|| mask_pid(&mut octets, record[PID_OCTET]));
    let clear = mask_reserved(&mut octets, record);
    Written { octets, masked, clear }
}

fn mask_pid(octets: &mut [u8], own: u8) -> u8 {
    let at = domain::pid_at(octets);
    std::mem::replace(&mut octets[at], own)
}

fn mask_reserved(octets: &mut [u8], record: &Flat) -> Option<u8> {
    let mut clear = None;
    for (group, reserved) in flat::reserved(record).enumerate() {
        let seventh = &mut octets[domain::seventh(0, group)];
        if *seventh & RESERVED_BITS != RESERVED_BITS {
            clear = clear.or(Some(*seventh));
        }
        *seventh = domain::with_reserved(*seventh, reserved);
    }
    clear
}

/// `new_simple_ui_frame` of two addresses that the Rust can hold but for their reserved bits: its frame, and the record that is owed.
pub fn simple_ui(source: &FlatAddress, destination: &FlatAddress, info: &[u8]) -> (Ax25Frame, Flat) {
    let [from, to] = [source, destination].map(|address| flat::addresses(&[*address]).remove(0));
    let frame = Ax25Frame::new_simple_ui_frame(from, to, info.to_vec());
    let reserved = [destination, source].map(|address| address[RESERVED]);
    let record = flat::carrying(flat::of_frame(&frame), reserved.into_iter(), 0);
    (frame, record)
}

fn text_number(error: &AddressParseError) -> u32 {
    match error {
        AddressParseError::CallsignTooLong => 31,
        AddressParseError::InvalidFormat => 32,
        AddressParseError::InvalidSsid { .. } => 33,
        AddressParseError::SsidOutOfRange => 34,
    }
}

fn address(answer: std::thread::Result<Result<Address, AddressParseError>>) -> Result<Address, u32> {
    match answer {
        Ok(read) => read.map_err(|error| text_number(&error)),
        Err(_) => Err(PANICKED),
    }
}

pub fn from_str(text: &str) -> Result<Address, u32> {
    address(catch_unwind(|| Address::from_str(text)))
}

pub fn from_parts(callsign: &str, ssid: u8) -> Result<Address, u32> {
    address(catch_unwind(|| Address::from_parts(callsign.to_string(), ssid)))
}
