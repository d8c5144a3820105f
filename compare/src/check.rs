//! One comparison for each kind of input. Each gives what differs, empty where the port answers as it owes: as the Rust
//! does on document 01's domain of equality, and as docs/DIFFERENCES.md lists outside it.

use crate::domain::{self, Listed, RESERVED_BITS, RUST_LAYER_3};
use crate::flat::{self, Flat, FlatAddress, ADDRESS, FLAT, KIND};
use crate::inputs::{self, FIELD};
use crate::kiss::{self, LONGEST};
use crate::lent::{rooms, Room, Tried, LONGER};
use crate::links::{self, Pair};
use crate::oracle::{self, Decode, Refusal};
use crate::pairs::{Outcome, Way};
use crate::parts::{Batch, Call, Day, Filled, Part, NOT_INSIDE};
use crate::port::{Beside, CaptureRecord, Entry, Fed, Link, Packet, Port, State, HOPS, PLACES};
use crate::reasons::{Reason, Why};
use crate::records;
use crate::relays::{self, Own};
use crate::rng::Rng;
use crate::seen::{Met, Seen, Writer};
use crate::show;
use crate::streams;
use ax25::frame::Ax25Frame;
use std::ops::Range;

/// One thing that differs, with both answers in full.
#[derive(Clone, Default)]
pub struct Difference {
    pub what: String,
    pub owed: String,
    pub port: String,
}

pub struct Checker {
    pub port: Port,
    pub seen: Seen,
    /// Differences are only counted, and not described.
    pub quiet: bool,
    /// Every room is tried, and not only some.
    thorough: bool,
    found: Vec<Difference>,
    /// Draws the rooms.
    draw: Rng,
    /// The inputs that wait for a call over many of them.
    batch: Batch,
    /// Draws what records hold before a call.
    unfilled: Rng,
}

/// All that the port's frame and info say of an accepted input: the record, and info by its octets.
#[derive(Clone, PartialEq, Eq, Hash)]
pub struct Shown {
    pub record: Flat,
    pub info: Vec<u8>,
}

/// An input as the port and the Rust read it, or the number by which they refuse it.
pub struct Both {
    pub octets: Vec<u8>,
    pub canonical: bool,
    pub port: Result<Shown, u32>,
    info_at: usize,
    rust: Result<Ax25Frame, u32>,
}

impl Both {
    /// Whether both are accepted with the same frame and info, by the port.
    pub fn agrees(&self, other: &Both) -> bool {
        self.port.is_ok() && self.port == other.port
    }

    /// The same by the Rust.
    pub fn agrees_by_rust(&self, other: &Both) -> bool {
        self.rust.is_ok() && self.rust == other.rust
    }

    /// How another input stands to this one, which is accepted.
    fn outcome(&self, other: &Both) -> Outcome {
        match (&self.port, &other.port) {
            (one, two) if other.octets.len() != self.octets.len() && one == two => Outcome::Length,
            _ if other.octets.len() != self.octets.len() => Outcome::Neither,
            _ if other.octets == self.octets => Outcome::Same,
            (_, Err(_)) => Outcome::Refused,
            (one, other) if one == other => Outcome::Unseen,
            (Ok(one), Ok(other)) if one.record == other.record => Outcome::Info,
            _ => Outcome::Frame,
        }
    }
}

/// A stretch of a KISS stream, and how many octets of the stream stand before it. The last of these, if there are any, is a C0.
pub struct Stretch<'a> {
    pub at: u64,
    pub octets: &'a [u8],
}

impl Stretch<'_> {
    /// What its first octets owe. Before it the port left this state, which was the one that is owed.
    fn owed(&self, start: &State, count: usize) -> kiss::Stream {
        let octets = &self.octets[..count];
        if self.at == 0 { kiss::stream(octets) } else { kiss::stream_on(start.port, start.held(), octets) }
    }

    fn place(&self, piece: Range<usize>) -> String {
        format!("octets {} to {} of a KISS stream", self.at + piece.start as u64, self.at + piece.end as u64)
    }
}

/// The state is looked at after each piece of a stretch of so many octets, and after the last piece of a longer one.
const LOOKED: usize = 4096;

/// The octets of a flat record's content.
const CONTENT: usize = FLAT - KIND;

impl Checker {
    pub fn new() -> Checker {
        Checker {
            port: Port::new(),
            seen: Seen::new(),
            quiet: false,
            thorough: false,
            found: Vec::new(),
            draw: Rng::new(0),
            batch: Batch::new(),
            unfilled: Rng::new(1),
        }
    }

    /// For one input at a time: whatever room showed a difference is among those that are tried.
    pub fn thorough() -> Checker {
        Checker { thorough: true, ..Checker::new() }
    }

    /// The rooms to write this many octets into.
    fn rooms(&mut self, tried: Tried, needed: usize) -> impl Iterator<Item = usize> {
        rooms(if self.thorough { Tried::All } else { tried }, needed, &mut self.draw)
    }

    /// Room for this many items, exactly or more.
    fn enough(&mut self, items: usize) -> usize {
        items + *self.draw.pick(&[0, LONGER])
    }

    fn differ(&mut self, what: &str, owed: impl FnOnce() -> String, port: impl FnOnce(&Checker) -> String) {
        let difference = if self.quiet {
            Difference::default()
        } else {
            Difference { what: what.to_string(), owed: owed(), port: port(self) }
        };
        self.found.push(difference);
    }

    fn finish(&mut self) -> Vec<Difference> {
        if let Some(fault) = self.port.fault() {
            self.differ("lent storage", || "nothing else is written".to_string(), |_| fault.to_string());
        }
        std::mem::take(&mut self.found)
    }

    /// The whole output of the last call, cut after the octets that are owed.
    fn output(&self, owed: usize) -> String {
        self.output_as(owed, show::left)
    }

    fn output_as(&self, owed: usize, shown: fn(&[u8]) -> String) -> String {
        if self.port.rest_is_as_it_was(0) {
            return "nothing".to_string();
        }
        let (owed, rest) = self.port.output().split_at(owed.min(self.port.output().len()));
        let touched = if self.port.rest_is_as_it_was(owed.len()) { "as it was" } else { "NOT as it was" };
        format!("{} and then, {}, {}", shown(owed), touched, show::hex(rest))
    }

    /// Octets off the air: decoded, written again, and by the loader's calls but the relay; and decoded as an old capture. They wait for the
    /// call that reads many of them, but where one input is looked at alone.
    pub fn octets(&mut self, input: &[u8]) -> Vec<Difference> {
        let rust = oracle::read(input);
        self.seen.decodes += 1;
        self.seen.searched(input);
        self.listed(input, &rust);
        let read = oracle::known(input, rust);
        let old = oracle::owed_of_old(input, &read);
        self.old_capture(input, &old);
        let owed = oracle::owed(input, old);
        match (&read, &owed.record) {
            (Ok(frame), Some(record)) => self.accepted(input, frame, &owed, record),
            _ => self.refused(input, &owed),
        }
        self.finish()
    }

    /// Where the port owes another answer than the Rust's, the Rust is held to what docs/DIFFERENCES.md says of it.
    fn listed(&mut self, input: &[u8], rust: &Result<Ax25Frame, Refusal>) {
        if domain::repeaters(input) > flat::REPEATERS {
            self.beyond(input, rust);
        }
        if domain::is_nulled(input) {
            self.behind_nulls(input, rust);
        }
        self.unknown(input, rust);
    }

    /// A kind that the Rust does not know: it answers 6 or 7, and has no details.
    fn unknown(&mut self, input: &[u8], rust: &Result<Ax25Frame, Refusal>) {
        let number = match domain::added_in(input) {
            Some(added) => added.refusal,
            None => return,
        };
        if *rust != Err(oracle::plain(number)) {
            let owed = || format!("the Rust does not know the kind, and answers {}", number);
            self.differ("B9", owed, |_| format!("the Rust: {:?}", rust));
        }
    }

    /// The number by both archives, the places and the record.
    fn old_capture(&mut self, input: &[u8], owed: &Decode) {
        self.seen.old_captures.capture(input, owed);
        if owed.number == 0 {
            self.seen.added(if domain::nulls(input) > 0 { Met::BehindNulls } else { Met::OldCapture }, input);
        }
        self.decode(Entry::OldCapture, input, owed);
        let number = self.port.number(Entry::OldCapture, input);
        if number != owed.number {
            self.differ("the loader's call for old captures", || show::number(owed.number), |_| number.to_string());
        }
    }

    fn accepted(&mut self, input: &[u8], frame: &Ax25Frame, owed: &Decode, record: &Flat) {
        let octets = self.owed_octets(frame, record);
        let info = owed.info(input);
        // That the flat record loses nothing of the Rust's frame, and is read as meant, is about the comparison and not the
        // product: a sample will do.
        if self.seen.decodes % 8 == 0 {
            self.holds_all(record, info, frame);
            self.again(record, record);
        }
        let reason = Reason::of(input);
        self.seen.frame(input, record, octets == input, reason);
        self.decode(Entry::Decoder, input, owed);
        self.loader(input, 0, &octets);
        self.in_a_list(input, Filled::accepted(octets == input, record[KIND]));
        self.reason(input, Why::accepted(reason));
        self.reason_beside(reason, octets == input);
        for room in self.rooms(Tried::Some, octets.len()) {
            self.seen.written(Writer::Reencode, record, info, Room::of(room, octets.len()));
            self.reencode(input, 0, &octets, room);
        }
        self.seen.writes += 1;
        for room in self.rooms(Tried::Some, octets.len()) {
            self.seen.written(Writer::Read, record, info, Room::of(room, octets.len()));
            self.write_in(Writer::Read, record, info, 0, &octets, room);
        }
    }

    /// Whether a flat record with its info loses nothing of the Rust's frame.
    fn holds_all(&mut self, record: &Flat, info: &[u8], frame: &Ax25Frame) {
        if flat::to_frame(record, info) != *frame {
            self.differ("the flat record", || format!("{:?}", frame), |_| show::record(record));
        }
    }

    /// What is owed to be written of a record that is read as this frame. Where an octet is not the Rust's, it is held to 10 hex, and
    /// where reserved bits are not, it is held to ones.
    fn owed_octets(&mut self, frame: &Ax25Frame, record: &Flat) -> Vec<u8> {
        let written = oracle::written(frame, record);
        if let Some(octet) = written.masked.filter(|&octet| octet != RUST_LAYER_3) {
            let owed = || format!("the Rust writes {:02X} for a layer 3 identifier", RUST_LAYER_3);
            self.differ("B6", owed, |_| format!("the Rust: {:02X}", octet));
        }
        if let Some(octet) = written.clear {
            let owed = || format!("the Rust sets the reserved bits, {:02X}, of each group's seventh octet", RESERVED_BITS);
            self.differ("B7", owed, |_| format!("the Rust: {:02X}", octet));
        }
        written.octets
    }

    fn refused(&mut self, input: &[u8], owed: &Decode) {
        self.seen.refusal(input, owed.number);
        self.decode(Entry::Decoder, input, owed);
        self.loader(input, owed.number, &[]);
        self.in_a_list(input, Filled::refused(owed.number));
        self.reason(input, Why::refused(input, owed.number));
        for room in self.refused_rooms(input) {
            self.seen.refused_room(owed.number, room, input.len());
            self.reencode(input, owed.number, &[], room);
        }
    }

    /// A room to re-encode a refused input into: most of the time one that a frame of its length would fit in.
    fn refused_rooms(&mut self, input: &[u8]) -> std::ops::Range<usize> {
        let enough = input.len() + LONGER;
        let room = match self.draw.below(6) {
            0 => 0,
            1 => self.draw.within(0, input.len()),
            _ => enough,
        };
        if self.thorough { 0..enough + 1 } else { room..room + 1 }
    }

    /// Nine or more repeaters: the port answers 9, or 10 behind nulls; the Rust reads them all and then looks at the content.
    fn beyond(&mut self, input: &[u8], rust: &Result<Ax25Frame, Refusal>) {
        self.seen.listed(Listed::B1);
        let as_listed = match rust {
            Ok(frame) => frame.route.len() == domain::repeaters(input),
            Err(refusal) => (5..=8).contains(&refusal.number),
        };
        if !as_listed {
            let owed = || "the Rust reads any number of repeaters".to_string();
            self.differ("B1", owed, |_| format!("the Rust: {:?}", rust));
        }
    }

    /// Nulls before a frame: the port's decoder answers 10; the Rust reads what follows them, and counts places from the first null.
    fn behind_nulls(&mut self, input: &[u8], rust: &Result<Ax25Frame, Refusal>) {
        self.seen.listed(Listed::B8);
        let nulls = domain::nulls(input);
        let rest = oracle::read(&input[nulls..]).map_err(|refusal| refusal.behind(nulls));
        if *rust != rest {
            let owed = || format!("the Rust skips {} nulls and reads {:?}", nulls, rest);
            self.differ("B8", owed, |_| format!("the Rust: {:?}", rust));
        }
    }

    /// The number, the places, and the record, which a refusal leaves alone.
    fn decode(&mut self, entry: Entry, input: &[u8], owed: &Decode) {
        let (room, sizes) = (self.enough(FLAT), self.enough(PLACES));
        let number = self.port.decode(entry, input, room, sizes);
        if number != owed.number || !self.port.output_is(owed.left()) || !self.port.sizes_are(&owed.places) {
            let what = match entry {
                Entry::Decoder => "decode",
                Entry::OldCapture => "decode, as an old capture",
            };
            let owes = || show::decode(owed.number, &owed.places, &show::left(owed.left()));
            self.differ(what, owes, |me| show::decode(number, me.port.sizes(), &me.output(FLAT)));
        }
    }

    /// The loader's calls without an output. `octets` is the re-encoding, empty for a refusal.
    fn loader(&mut self, input: &[u8], number: u32, octets: &[u8]) {
        let canonical = u32::from(number == 0 && octets == input);
        let owed = (number, canonical, octets.len());
        let port = (self.port.number(Entry::Decoder, input), self.port.canonical(input), self.port.reencoded_length(input));
        if port != owed {
            let say = |(number, canonical, length): (u32, u32, usize)| {
                format!("number {} canonical {} re-encoded length {}", show::number(number), canonical, length)
            };
            self.differ("the loader's calls", || say(owed), |_| say(port));
        }
    }

    /// The loader's call that says why.
    fn reason(&mut self, input: &[u8], owed: Why) {
        let port = self.port.reason(input);
        if port != owed {
            self.differ("the reason", || show::why(&owed), |_| show::why(&port));
        }
    }

    /// What document 02's words say of an accepted input is held to its re-encoding: none exactly where that is the input.
    fn reason_beside(&mut self, reason: Reason, canonical: bool) {
        if canonical != (reason == Reason::None) {
            let owes = || format!("none exactly where the re-encoding is the input, which it is{}", if canonical { "" } else { " not" });
            self.differ("the reason by M-110's words, in the port's place", owes, |_| format!("{:?}", reason));
        }
    }

    /// The loader's call for many parts of a buffer, of which this input is to be one.
    fn in_a_list(&mut self, input: &[u8], owed: Filled) {
        if !self.thorough {
            self.batch.add(input, owed);
            return;
        }
        let (before, behind) = (inputs::with_content(&[0x61]), inputs::FRAME);
        let (part, whole) = (Part { start: before.len(), length: input.len() }, Part { start: 0, length: input.len() });
        let buffer = [&before[..], input, &behind].concat();
        let beside = [
            Part { start: 0, length: before.len() },
            Part { start: before.len() + input.len(), length: behind.len() },
            Part { start: buffer.len() + 1, length: 0 },
        ];
        let beside = beside.map(|part| (part, self.owed_of_part(&buffer, &part)));
        let among = beside.iter().flat_map(|&other| [other, (part, owed)]).chain([(part, owed)]).collect();
        for call in [Call { buffer: input.to_vec(), parts: vec![(whole, owed)] }, Call { buffer, parts: among }] {
            let unlike = self.call(&call);
            self.found.extend(unlike.into_iter().flat_map(|(_, found)| found));
        }
    }

    /// The calls on the inputs that have come together, if enough have, or where no more will come.
    pub fn calls(&mut self, is_last: bool) -> Vec<Call> {
        let due = self.batch.is_due() || is_last && self.batch.len() > 0;
        if !due {
            return Vec::new();
        }
        self.seen.parts.inputs += self.batch.len() as u64;
        self.batch.take()
    }

    /// What a part of a buffer owes, by the Rust's own reading of its octets.
    pub fn owed_of_part(&mut self, buffer: &[u8], part: &Part) -> Filled {
        part.of(buffer).map_or(Filled::refused(NOT_INSIDE), |octets| self.owed_in_a_list(octets))
    }

    fn owed_in_a_list(&mut self, octets: &[u8]) -> Filled {
        match decoded(octets) {
            Ok(frame) => {
                let record = oracle::record(octets, &frame);
                Filled::accepted(self.owed_octets(&frame, &record) == octets, record[KIND])
            }
            Err(number) => Filled::refused(number),
        }
    }

    /// One call over many parts: what differs in each record, and beside the records.
    pub fn call(&mut self, call: &Call) -> Vec<(Option<usize>, Vec<Difference>)> {
        self.seen.parts.call(call);
        let mut beside = std::mem::take(&mut self.found);
        let records = call.unfilled(&mut self.unfilled);
        self.port.captures(&call.buffer, &records);
        let mut unlike = Vec::new();
        for at in 0..call.parts.len() {
            let given = self.port.records()[at];
            self.record_is("the record", &call.owed(at), &given);
            if !self.found.is_empty() {
                unlike.push((Some(at), std::mem::take(&mut self.found)));
            }
        }
        beside.extend(self.finish());
        if !beside.is_empty() {
            unlike.push((None, beside));
        }
        unlike
    }

    fn record_is(&mut self, what: &str, owed: &CaptureRecord, given: &CaptureRecord) {
        if given != owed {
            self.differ(what, || show::capture_record(owed), |_| show::capture_record(given));
        }
    }

    /// A frame of a capture that was read in one call, this being its number in the list, and the frames before it having so many octets: its
    /// record is held to what is owed, and to the port's single calls, and its octets in the buffer to the frame.
    pub fn in_one_call(&mut self, day: &Day, at: usize, before: usize, frame: &[u8]) -> (Filled, Vec<Difference>) {
        let (part, given) = (Part { start: before, length: frame.len() }, day.record(at));
        let (owed, single) = (self.owed_in_a_list(frame), self.by_single_calls(frame));
        self.record_is("the record", &part.filled(&owed), &given);
        self.record_is("the record, beside the single calls", &part.filled(&single), &given);
        let octets = part.of(day.buffer()).unwrap_or(&[]);
        if octets != frame {
            self.differ("the buffer", || show::hex(frame), |_| show::hex(octets));
        }
        (owed, self.finish())
    }

    /// What the port's own calls on one input say of it. Of the kind of a refused one there is no such call.
    fn by_single_calls(&mut self, input: &[u8]) -> Filled {
        let (number, canonical) = (self.port.number(Entry::Decoder, input), self.port.canonical(input));
        let refused = Filled::refused(number).kind;
        let kind = if self.port.decode(Entry::Decoder, input, FLAT, PLACES) == 0 { self.port.output()[KIND].into() } else { refused };
        Filled { number, canonical: canonical.try_into().unwrap_or(u16::MAX), kind }
    }

    fn reencode(&mut self, input: &[u8], number: u32, octets: &[u8], room: usize) {
        let (owed, octets) = self.owed_in(Writer::Reencode, room, number, octets);
        let port = self.port.reencode(input, room);
        if port != owed || !self.port.output_is(octets) {
            let says = |me: &Checker| format!("number {} written {}", port, me.output(octets.len()));
            self.differ(&format!("re-encoding into {} octets", room), || show::written(owed, octets.len(), octets), says);
        }
    }

    /// What is owed in a room of this size: 24 where an accepted write doesn't fit, and a refusal writes nothing.
    fn fitting<'a>(&mut self, writer: Writer, room: usize, number: u32, octets: &'a [u8]) -> (u32, &'a [u8]) {
        if number != 0 {
            return (number, &[]);
        }
        self.seen.room(writer, Room::of(room, octets.len()));
        if room < octets.len() { (24, &[]) } else { (0, octets) }
    }

    /// The same of what the Rust writes too, whose output grows.
    fn owed_in<'a>(&mut self, writer: Writer, room: usize, number: u32, octets: &'a [u8]) -> (u32, &'a [u8]) {
        let owed = self.fitting(writer, room, number, octets);
        if owed.0 == 24 {
            self.seen.listed(Listed::B4);
        }
        owed
    }

    /// The record as `probe` reads it, flat again.
    fn again(&mut self, record: &[u8], owed: &Flat) {
        self.seen.added_record(Met::Again, owed, &[]);
        let room = self.enough(FLAT);
        let number = self.port.again(record, room);
        self.left("the record as read", number, owed);
    }

    /// Whether the last call answered 0 and left this record.
    fn left(&mut self, what: &str, number: u32, owed: &Flat) {
        if number != 0 || !self.port.output_is(owed) {
            let says = |me: &Checker| format!("number {} written {}", number, me.output(FLAT));
            self.differ(what, || format!("number 0 {}", show::record(owed)), says);
        }
    }

    /// Writing a record that was made up, in each kind of room. `settled` is how the record is read.
    fn write(&mut self, record: &[u8], settled: &Flat, info: &[u8], octets: &[u8]) {
        self.seen.writes += 1;
        for room in self.rooms(Tried::Each, octets.len()) {
            self.seen.written(Writer::MadeUp, settled, info, Room::of(room, octets.len()));
            self.write_in(Writer::MadeUp, record, info, 0, octets, room);
        }
    }

    fn write_in(&mut self, writer: Writer, record: &[u8], info: &[u8], number: u32, octets: &[u8], room: usize) {
        let (number, octets) = self.owed_in(writer, room, number, octets);
        let port = self.port.encode(record, info, room);
        if port != (number, octets.len()) || !self.port.output_is(octets) {
            let says = |me: &Checker| format!("number {} length {} written {}", port.0, port.1, me.output(octets.len()));
            self.differ(&format!("writing into {} octets", room), || show::written(number, octets.len(), octets), says);
        }
    }

    /// Writing an input again with the input, or its info, close to the output; or refusing to, and leaving all as it was.
    pub fn beside(&mut self, input: &[u8], beside: &Beside) -> Vec<Difference> {
        match decoded(input) {
            Ok(frame) => self.accepted_beside(input, &frame, beside),
            Err(number) => self.refused_beside(input, number, beside),
        }
        self.finish()
    }

    fn accepted_beside(&mut self, input: &[u8], frame: &Ax25Frame, beside: &Beside) {
        let (record, info) = (oracle::record(input, frame), flat::info_of(frame).unwrap_or(&[]));
        let octets = self.owed_octets(frame, &record);
        for room in self.rooms(Tried::Some, octets.len()) {
            let (number, owed) = self.owed_in(Writer::Beside, room, 0, &octets);
            self.seen.beside(number);
            self.seen.own(Writer::Beside, &record, info, Room::of(room, octets.len()));
            let port = self.port.reencode_beside(input, room, owed, beside);
            self.placed("re-encoding beside the input", port, number, owed);
            let port = self.port.encode_beside(&record, info, room, owed, beside);
            self.placed("writing beside the info", port, number, owed);
        }
    }

    fn refused_beside(&mut self, input: &[u8], number: u32, beside: &Beside) {
        self.seen.beside(number);
        for room in self.refused_rooms(input) {
            let port = self.port.reencode_beside(input, room, &[], beside);
            self.placed("re-encoding beside the input", port, number, &[]);
        }
    }

    /// Refusing to write a record that the Rust can't hold, its info close to the output.
    pub fn record_beside(&mut self, record: &[u8], info: &[u8], beside: &Beside) -> Vec<Difference> {
        let number = domain::record_number(&padded::<FLAT>(record), info);
        for room in [0, FLAT + info.len() + LONGER] {
            let port = self.port.encode_beside(record, info, room, &[], beside);
            self.placed("writing beside the info", port, number, &[]);
        }
        self.finish()
    }

    /// Whether the last call gave this number, left these octets, and all else in the storage is as it was.
    fn placed(&mut self, what: &str, port: (u32, bool), number: u32, octets: &[u8]) {
        if port != (number, true) {
            let says = |me: &Checker| format!("number {}, all the storage {}", port.0, show::hex(me.port.output()));
            self.differ(what, || show::written(number, octets.len(), octets), says);
        }
    }

    /// A record, octets past its end being 0, and info: written by both. What is written is then decoded by both.
    pub fn record(&mut self, record: &[u8], info: &[u8]) -> Vec<Difference> {
        let octets = self.write_record(record, info);
        let mut found = self.finish();
        found.extend(octets.iter().flat_map(|octets| self.octets(octets)));
        found
    }

    /// The octets that are owed, unless it is refused.
    fn write_record(&mut self, record: &[u8], info: &[u8]) -> Option<Vec<u8>> {
        let whole = padded::<FLAT>(record);
        match domain::record_number(&whole, info) {
            0 => Some(self.holdable(record, &whole, info)),
            number => {
                self.unholdable(record, &whole, info, number);
                None
            }
        }
    }

    fn holdable(&mut self, record: &[u8], whole: &Flat, info: &[u8]) -> Vec<u8> {
        let frame = flat::to_frame(whole, info);
        let octets = self.owed_octets(&frame, whole);
        let settled = flat::settled(whole, &frame);
        self.again(record, &settled);
        self.write(record, &settled, info, &octets);
        octets
    }

    /// Into no room, some, almost and just as much as it would take with a PID, and more.
    fn unholdable(&mut self, record: &[u8], whole: &Flat, info: &[u8], number: u32) {
        self.seen.listed(Listed::B3);
        if number == 25 || number == 22 && flat::in_use(whole).iter().all(domain::is_held) {
            // The Rust can hold all of it but one octet, or but the reserved bits, so how it is read can be asked.
            self.again(record, &flat::settled(whole, &flat::to_frame(whole, info)));
        }
        let needed = domain::length_with_pid(whole, info);
        for room in [0, 14, needed - 1, needed, FLAT + info.len() + LONGER] {
            self.seen.write_refusal(number, whole, info, room >= needed);
            self.write_in(Writer::MadeUp, record, info, number, &[], room);
        }
    }

    /// Whether the last call read this address, or refused by this number and left the octets alone.
    fn address(&mut self, what: &str, owed: Result<FlatAddress, u32>, number: u32) {
        let owed_number = owed.err().unwrap_or(0);
        let octets = owed.as_ref().map_or(&[][..], |address| &address[..]);
        self.seen.text(owed_number);
        if number != owed_number || !self.port.output_is(octets) {
            let owes = || format!("number {} address {}", show::number(owed_number), show::left(octets));
            self.differ(what, owes, |me| format!("number {} address {}", number, me.output(ADDRESS)));
        }
    }

    /// Text to an address.
    pub fn text(&mut self, text: &[u8]) -> Vec<Difference> {
        let callsign = text.split(|&octet| octet == b'-').next().unwrap_or(&[]);
        let owed = self.owed_of_text(text, callsign, oracle::from_str);
        let room = self.enough(ADDRESS);
        let number = self.port.from_str(text, room);
        self.address("text", owed, number);
        self.finish()
    }

    /// A callsign and an SSID to an address.
    pub fn parts(&mut self, callsign: &[u8], ssid: u8) -> Vec<Difference> {
        let owed = self.owed_of_text(callsign, callsign, |text| oracle::from_parts(text, ssid));
        let room = self.enough(ADDRESS);
        let number = self.port.from_parts(callsign, ssid, room);
        self.address("from_parts", owed, number);
        self.finish()
    }

    /// The Rust's answer for ASCII text. Else 35, and the Rust takes letters of any script, where it has a text at all.
    fn owed_of_text<F>(&mut self, text: &[u8], callsign: &[u8], ask: F) -> Result<FlatAddress, u32>
    where
        F: Fn(&str) -> Result<ax25::frame::Address, u32>,
    {
        let rust = std::str::from_utf8(text).map(ask);
        if domain::is_wide(text) {
            self.seen.listed(Listed::B2);
            if let Ok(rust) = rust {
                self.wide(text, callsign, rust);
            }
            return Err(35);
        }
        rust.expect("ASCII is UTF-8").map(|address| flat::of_address(&address))
    }

    fn wide(&mut self, text: &[u8], callsign: &[u8], rust: Result<ax25::frame::Address, u32>) {
        self.seen.wide(rust.is_ok());
        let as_listed = match &rust {
            Ok(address) => {
                let upper = String::from_utf8_lossy(callsign).to_uppercase();
                address.callsign() == upper && upper.len() <= 6 && upper.chars().all(char::is_alphanumeric)
            }
            Err(number) => (31..=34).contains(number),
        };
        if !as_listed {
            let owed = || format!("the Rust takes letters of any script in {}", show::text(text));
            self.differ("B2", owed, |_| format!("the Rust: {:?}", rust));
        }
    }

    /// Printing an address of eight flat octets, those past its end being 0.
    pub fn print(&mut self, address: &[u8]) -> Vec<Difference> {
        let whole = padded::<ADDRESS>(address);
        if domain::encodable(&whole) {
            let text = flat::addresses(&[whole])[0].to_string();
            self.seen.print(0, &whole);
            for room in self.rooms(Tried::Each, text.len()) {
                self.print_in(address, 0, text.as_bytes(), room);
            }
        } else {
            self.seen.listed(Listed::B3);
            self.seen.print(22, &whole);
            for room in [0, 32] {
                self.print_in(address, 22, &[], room);
            }
        }
        self.finish()
    }

    fn print_in(&mut self, address: &[u8], number: u32, text: &[u8], room: usize) {
        let (number, text) = self.owed_in(Writer::Print, room, number, text);
        let port = self.port.print(address, room);
        if port != (number, text.len()) || !self.port.output_is(text) {
            let says = |me: &Checker| format!("number {} length {} written {}", port.0, port.1, me.output(text.len()));
            self.differ(&format!("printing into {} octets", room), || show::written(number, text.len(), text), says);
        }
    }

    /// `new_simple_ui_frame` of two addresses, then written with info.
    pub fn simple_ui(&mut self, source: &[u8], destination: &[u8], info: &[u8]) -> Vec<Difference> {
        let (frame, owed) = oracle::simple_ui(&padded(source), &padded(destination), info);
        let room = self.enough(FLAT);
        let number = self.port.simple_ui(source, destination, room);
        self.made("new_simple_ui_frame", number, &frame, &owed, info);
        self.finish()
    }

    /// The default frame.
    pub fn default(&mut self) -> Vec<Difference> {
        let frame = Ax25Frame::default();
        let owed = flat::of_frame(&frame);
        for room in [FLAT, FLAT + LONGER] {
            let number = self.port.default(room);
            self.made("default", number, &frame, &owed, &[]);
        }
        let kind = Filled::refused(1).kind;
        if kind != owed[KIND].into() {
            let owes = || format!("that of the Rust's default frame, {}", owed[KIND]);
            self.differ("a refused record's kind by M-111's words, in the port's place", owes, |_| kind.to_string());
        }
        self.finish()
    }

    /// Whether the last call left this record of a frame that the Rust makes too; it is then written.
    fn made(&mut self, what: &str, number: u32, frame: &Ax25Frame, owed: &Flat, info: &[u8]) {
        self.left(what, number, owed);
        self.holds_all(owed, info, frame);
        self.write_record(owed, info);
    }

    /// Content alone, from its control octet on: read, and written again. The Rust's reader of content can be asked only by way of
    /// a frame.
    pub fn content(&mut self, content: &[u8]) -> Vec<Difference> {
        let input = inputs::with_content(content);
        let rust = oracle::read(&input);
        self.unknown(&input, &rust);
        match oracle::known(&input, rust) {
            Ok(frame) => {
                let (record, info) = (oracle::record(&input, &frame), flat::info_of(&frame).unwrap_or(&[]));
                self.seen.added(Met::Content, &input);
                self.read_content(content, 0, &record[KIND..]);
                self.seen.writes += 1;
                let octets = &self.owed_octets(&frame, &record)[FIELD..];
                for room in self.rooms(Tried::Some, octets.len()) {
                    self.seen.written(Writer::Content, &record, info, Room::of(room, octets.len()));
                    self.write_content(&record[KIND..], info, 0, octets, room);
                }
            }
            Err(_) if content.is_empty() => {
                self.seen.listed(Listed::B5);
                self.read_content(content, 4, &[]);
            }
            Err(refusal) => self.read_content(content, refusal.number, &[]),
        }
        self.finish()
    }

    fn read_content(&mut self, content: &[u8], owed: u32, octets: &[u8]) {
        self.seen.content(owed);
        let room = self.enough(CONTENT);
        let number = self.port.content(content, room);
        if number != owed || !self.port.output_is(octets) {
            let says = |me: &Checker| format!("number {} content {}", number, me.output(CONTENT));
            self.differ("content alone", || format!("number {} content {}", show::number(owed), show::left(octets)), says);
        }
    }

    /// Content that was made up, octets past its end being 0, and info: written alone.
    pub fn content_record(&mut self, content: &[u8], info: &[u8]) -> Vec<Difference> {
        let whole = with_plain_addresses(content);
        match domain::record_number(&whole, info) {
            0 => {
                let frame = flat::to_frame(&whole, info);
                let octets = &self.owed_octets(&frame, &whole)[FIELD..];
                self.seen.writes += 1;
                for room in self.rooms(Tried::Each, octets.len()) {
                    self.seen.written(Writer::Content, &flat::settled(&whole, &frame), info, Room::of(room, octets.len()));
                    self.write_content(content, info, 0, octets, room);
                }
            }
            number => {
                self.seen.listed(Listed::B3);
                let needed = domain::length_with_pid(&whole, info) - FIELD;
                for room in [0, 1, needed - 1, needed, info.len() + LONGER] {
                    self.seen.content_refusal(number, &whole, info, room >= needed);
                    self.write_content(content, info, number, &[], room);
                }
            }
        }
        self.finish()
    }

    fn write_content(&mut self, content: &[u8], info: &[u8], number: u32, octets: &[u8], room: usize) {
        let (number, octets) = self.owed_in(Writer::Content, room, number, octets);
        let port = self.port.encode_content(content, info, room);
        if port != (number, octets.len()) || !self.port.output_is(octets) {
            let says = |me: &Checker| format!("number {} length {} written {}", port.0, port.1, me.output(octets.len()));
            self.differ(&format!("writing content into {} octets", room), || show::written(number, octets.len(), octets), says);
        }
    }

    /// The hops of a record, octets past its end being 0. The Rust has none: the model is document 01's words.
    pub fn hops(&mut self, record: &[u8]) -> Vec<Difference> {
        let whole = padded::<FLAT>(record);
        let owed = domain::hops(&whole);
        self.seen.hops(&whole, owed[1]);
        let sizes = self.enough(HOPS);
        let number = self.port.hops(record, sizes);
        if number != 0 || !self.port.sizes_are(&owed) {
            let says = |me: &Checker| format!("number {} hop set, hops used, due place {:?}", number, me.port.sizes());
            self.differ("hops", || format!("number 0 hop set, hops used, due place {:?}", owed), says);
        }
        self.finish()
    }

    /// Whether two flat addresses, octets past their ends being 0, are of the same station: as the Rust, which has no reserved bits, says
    /// where it can hold both, else by callsign and SSID.
    pub fn same_station(&mut self, one: &[u8], other: &[u8]) -> Vec<Difference> {
        let pair = [padded::<ADDRESS>(one), padded(other)];
        let held = pair.iter().all(domain::is_held);
        let same = if held {
            let known = flat::addresses(&pair);
            known[0] == known[1]
        } else {
            domain::same_station(&pair[0], &pair[1])
        };
        self.seen.stations(&pair, held, same);
        let port = self.port.same_station(one, other);
        if port != u32::from(same) {
            self.differ("same station", || u32::from(same).to_string(), |_| port.to_string());
        }
        self.finish()
    }

    /// An input passed on by each of its repeaters, which owes 10 where nulls stand before it.
    pub fn relays(&mut self, input: &[u8]) -> Vec<Difference> {
        let read = read_old(input);
        let route = read.as_ref().map_or(Vec::new(), relays::of_route);
        self.seen.relayed_routes += u64::from(!route.is_empty());
        route.iter().flat_map(|own| self.relay(own, input, &read)).collect()
    }

    /// An input, which as an old capture was read so, passed on by a station: the number, and every octet. The Rust has no relay: what is
    /// owed follows from its decode and document 02's words.
    pub fn relay(&mut self, own: &Own, input: &[u8], read: &Result<Ax25Frame, u32>) -> Vec<Difference> {
        let behind = owed_of_relay(own, read);
        let nulled = Err(10);
        let read = if domain::is_nulled(input) { &nulled } else { read };
        let owed = owed_of_relay(own, read);
        let owed_number = owed.err().unwrap_or(0);
        self.seen.relay(own, input, read, owed, behind);
        let octets = domain::relayed(input, owed);
        let number = self.port.relay(&own.callsign, own.ssid, input);
        if number != owed_number || !self.port.output_is(&octets) {
            let owes = || show::written(owed_number, octets.len(), &octets);
            self.differ(&format!("relay by {}", own.words()), owes, |me| me.relayed(number));
        }
        if domain::added_in(input).is_some() {
            self.unknown(input, &oracle::read(input));
        }
        if let (Ok(frame), Ok(due)) = (read, owed) {
            self.passed_on(frame, due);
        }
        self.finish()
    }

    fn relayed(&self, number: u32) -> String {
        let octets = self.port.output();
        let beside = if self.port.rest_is_as_it_was(octets.len()) { "" } else { ", and octets beside them" };
        show::written(number, octets.len(), octets) + beside
    }

    /// Whether both read what the relay left as the frame that came, with this mark set.
    fn passed_on(&mut self, frame: &Ax25Frame, due: usize) {
        let octets = self.port.output().to_vec();
        let mut owed = frame.clone();
        owed.route[due].has_repeated = true;
        let rust = oracle::known(&octets, oracle::read(&octets));
        if rust.as_ref() != Ok(&owed) {
            self.differ("the relayed frame, read by the Rust", || format!("{:?}", owed), |_| format!("{:?}", rust));
        }
        self.decode(Entry::Decoder, &octets, &oracle::accepted(&octets, &owed));
    }

    /// A KISS packet of a capture, which captures.py read so.
    pub fn captured_packet(&mut self, packet: &[u8], said: &kiss::Read) -> Vec<Difference> {
        let owed = kiss::read(packet);
        if *said != owed {
            self.differ("read by captures.py, in the port's place", || show::packet(&owed), |_| show::packet(said));
        }
        self.packet(packet)
    }

    /// A KISS packet, read; where it is accepted, the port and the data that it holds are written, which has to give the packet.
    pub fn packet(&mut self, packet: &[u8]) -> Vec<Difference> {
        let owed = kiss::read(packet);
        self.seen.packet(packet, &owed);
        for room in self.packet_rooms(packet, &owed) {
            self.read_packet(packet, &owed, room);
        }
        if let Ok((port, data)) = owed {
            for room in self.rooms(Tried::Some, packet.len()) {
                self.write_packet(port, &data, &Ok(packet.to_vec()), room);
            }
        }
        self.finish()
    }

    fn packet_rooms(&mut self, packet: &[u8], owed: &kiss::Read) -> Vec<usize> {
        match owed {
            Ok((_, data)) => self.rooms(Tried::Each, data.len()).collect(),
            Err(_) => self.refused_rooms(packet).collect(),
        }
    }

    /// Number, port, length and data; a refusal gives port and length 0 and leaves the output alone.
    fn read_packet(&mut self, packet: &[u8], owed: &kiss::Read, room: usize) {
        if let Err(number) = owed {
            self.seen.packet_refused_room(*number, room, packet.len());
        }
        let (number, port, data) = self.owed_of_reading(owed, room);
        let read = self.port.kiss_read(packet, room);
        if read != (number, port, data.len()) || !self.port.output_is(data) {
            let says = |me: &Checker| {
                format!("number {} port {} length {} data {}", read.0, read.1, read.2, me.output_as(data.len(), show::hex))
            };
            let owes = || format!("number {} port {} length {} data {}", number, port, data.len(), show::hex(data));
            self.differ(&format!("reading a KISS packet into {} octets", room), owes, says);
        }
    }

    fn owed_of_reading<'a>(&mut self, owed: &'a kiss::Read, room: usize) -> (u32, u8, &'a [u8]) {
        let (number, port, data) = match owed {
            Ok((port, data)) => (0, *port, &data[..]),
            Err(number) => (*number, 0, &[][..]),
        };
        let (number, data) = self.fitting(Writer::PacketRead, room, number, data);
        (number, if number == 0 { port } else { 0 }, data)
    }

    /// A port and data, written as a KISS packet, which is then read.
    pub fn written_packet(&mut self, port: u8, data: &[u8]) -> Vec<Difference> {
        let owed = kiss::write(port, data);
        self.seen.written_packet(port, &owed);
        let rooms: Vec<usize> = match &owed {
            Ok(packet) => self.rooms(Tried::Each, packet.len()).collect(),
            Err(_) => self.refused_rooms(data).collect(),
        };
        for room in rooms {
            self.write_packet(port, data, &owed, room);
        }
        let mut found = self.finish();
        found.extend(owed.iter().flat_map(|packet| self.packet(packet)));
        found
    }

    fn write_packet(&mut self, port: u8, data: &[u8], owed: &Result<Vec<u8>, u32>, room: usize) {
        if owed.is_err() {
            self.seen.packet_write_refused_room(room, data.len());
        }
        let packet = owed.as_ref().map_or(&[][..], Vec::as_slice);
        let (number, packet) = self.fitting(Writer::PacketWrite, room, owed.as_ref().err().copied().unwrap_or(0), packet);
        let written = self.port.kiss_write(port, data, room);
        if written != (number, packet.len()) || !self.port.output_is(packet) {
            let says = |me: &Checker| {
                format!("number {} length {} octets {}", written.0, written.1, me.output_as(packet.len(), show::hex))
            };
            let what = format!("writing a KISS packet on port {} into {} octets", port, room);
            self.differ(&what, || show::written(number, packet.len(), packet), says);
        }
    }

    /// A packet and the room for its data side by side, and where it is accepted the data and the room for the packet.
    pub fn packet_beside(&mut self, packet: &[u8], beside: &Beside) -> Vec<Difference> {
        let owed = kiss::read(packet);
        for room in self.packet_rooms(packet, &owed) {
            let (number, port, data) = self.owed_of_reading(&owed, room);
            let read = self.port.kiss_read_beside(packet, room, port, data, beside);
            self.placed("reading a KISS packet beside its data", read, number, data);
        }
        if let Ok((port, data)) = &owed {
            for room in self.rooms(Tried::Some, packet.len()) {
                let (number, octets) = self.fitting(Writer::PacketWrite, room, 0, packet);
                let written = self.port.kiss_write_beside(*port, data, room, octets, beside);
                self.placed("writing a KISS packet beside its data", written, number, octets);
            }
        }
        self.finish()
    }

    /// The next stretch of a KISS log, from this state on, which it leaves as the one after the stretch, and what captures.py read of the
    /// packets that are closed in it, or in and behind it where it is the last one: they are given out or dropped, and one that is not
    /// closed may be dropped.
    pub fn captured_stretch(
        &mut self,
        state: &mut State,
        stretch: &Stretch,
        is_last: bool,
        cuts: &[Vec<usize>],
        said: &mut dyn Iterator<Item = kiss::Read>,
    ) -> Vec<Difference> {
        let owed = stretch.owed(state, stretch.octets.len());
        let count = if is_last { usize::MAX } else { owed.packets.len() + owed.dropped.len() };
        let closed: Vec<kiss::Read> = said.take(count).collect();
        let read: Vec<_> = closed.iter().filter_map(|read| read.as_ref().ok()).filter(|(_, data)| data.len() <= LONGEST).collect();
        let given: Vec<_> = owed.packets.iter().map(|(_, packet)| packet).collect();
        let dropped = closed.len() - read.len() + usize::from(owed.phase == 4);
        if read != given || dropped != owed.dropped.len() {
            let other = read.iter().zip(&given).take_while(|(one, other)| one == other).count();
            let says = |packets: &[&(u8, Vec<u8>)], dropped: usize| {
                let packet = packets.get(other).map_or("none".to_string(), |&packet| show::packet(&Ok(packet.clone())));
                format!("{} packets given out, {} dropped; packet {}: {}", packets.len(), dropped, other + 1, packet)
            };
            let owes = || says(&given, owed.dropped.len());
            let what = format!("the packets of captures.py, in the port's place, {}", stretch.place(0..stretch.octets.len()));
            self.differ(&what, owes, |_| says(&read, dropped));
        }
        if let Some(left) = self.stretch(state, stretch, cuts, &owed) {
            *state = left;
        }
        self.finish()
    }

    /// A stream, read from this state on.
    pub fn stream(&mut self, start: &State, octets: &[u8], cuts: &[Vec<usize>]) -> Vec<Difference> {
        let stretch = Stretch { at: 0, octets };
        let owed = stretch.owed(start, octets.len());
        self.stretch(start, &stretch, cuts, &owed);
        self.finish()
    }

    /// A stretch, read in one piece, and in pieces of these lengths in turn: each call, the states between, and at the end the same state,
    /// octet by octet, which is given.
    fn stretch(&mut self, start: &State, stretch: &Stretch, cuts: &[Vec<usize>], owed: &kiss::Stream) -> Option<State> {
        self.seen.stream(start, stretch, owed);
        let whole = self.fed(start, stretch, &[stretch.octets.len()], owed);
        for cut in cuts {
            let left = self.fed(start, stretch, cut, owed);
            if let (Some(whole), Some(left)) = (&whole, &left) {
                if whole != left {
                    let says = |state: &State| format!("{} and in all {}", show::state(state), show::hex(&state.data));
                    self.differ(&format!("the state, in pieces of {:?} beside in one", cut), || says(whole), |_| says(left));
                }
            }
        }
        whole
    }

    /// The state that is left; none where something differs, since nothing is owed from there on.
    fn fed(&mut self, start: &State, stretch: &Stretch, cut: &[usize], owed: &kiss::Stream) -> Option<State> {
        let (mut state, mut given, octets) = (*start, owed.packets.iter().peekable(), stretch.octets);
        for piece in streams::pieces(octets.len(), cut) {
            let (before, mut calls, mut at) = (state, Vec::new(), piece.start);
            while let Some((end, (port, data))) = given.next_if(|(end, _)| *end <= piece.end) {
                calls.push(Fed { taken: end - at, packet: Packet { ready: 1, port: (*port).into(), length: data.len() }, data: data.clone() });
                at = *end;
            }
            if at < piece.end || piece.is_empty() {
                calls.push(Fed { taken: piece.end - at, packet: Packet { ready: 0, port: 0, length: 0 }, data: Vec::new() });
            }
            let fed = self.port.kiss_feed(&mut state, &octets[piece.clone()]);
            let place = || format!("{} in pieces of {:?}", stretch.place(piece.clone()), cut);
            if fed != calls {
                let other = fed.iter().zip(&calls).take_while(|(fed, call)| fed == call).count();
                self.differ(&format!("call {} for {}", other + 1, place()), || show::call(calls.get(other)), |_| show::call(fed.get(other)));
                return None;
            }
            if piece.is_empty() && state != before {
                self.differ(&format!("the state before and after {}", place()), || show::state(&before), |_| show::state(&state));
                return None;
            }
            self.seen.piece(&state, piece.end < octets.len());
            let looked = octets.len() <= LOOKED || piece.end == octets.len();
            if looked && !self.left_by(&stretch.owed(start, piece.end), start, &state, place) {
                return None;
            }
        }
        Some(state)
    }

    /// Whether this is the state that is owed. The octets behind the data are not said.
    fn left_by(&mut self, owed: &kiss::Stream, start: &State, state: &State, place: impl Fn() -> String) -> bool {
        let count = owed.count(start.dropped);
        let same = (state.phase, state.port, state.dropped) == (owed.phase, owed.port, count)
            && usize::from(state.length) == owed.data.len()
            && state.held() == owed.data;
        if !same {
            let owes = || show::state_of(owed.phase, owed.port, &owed.data, count);
            self.differ(&format!("the state after {}", place()), owes, |_| show::state(state));
        }
        same
    }

    /// A frame, which is read so, offered to the record of a link: the record that the port leaves, and what differs.
    pub fn link(&mut self, link: &Link, frame: &[u8], read: &links::Read) -> (Link, Vec<Difference>) {
        let owed = links::offered(link, read);
        self.seen.links.offered(link, read, &owed);
        let given = self.port.link_offer(link, frame);
        if given != owed {
            self.differ("the link", || show::offered(&owed), |_| show::offered(&given));
        }
        (given.1, self.finish())
    }

    /// The record of a link that was followed from a fresh one through a capture: its four counts add up to the I frames between the two.
    pub fn link_counts(&mut self, link: &Link, pair: &Pair) -> Vec<Difference> {
        if links::sum(link) != pair.count {
            let owes = || format!("{} I frames, counted without a link", pair.count);
            self.differ("the sum of the link's counts", owes, |_| format!("{} in {}", links::sum(link), show::link(link)));
        }
        self.finish()
    }

    /// What both make of an input. A difference that this finds stands with those of the next comparison.
    pub fn both(&mut self, input: &[u8]) -> Both {
        let canonical = self.port.canonical(input) == 1;
        let number = self.port.decode(Entry::Decoder, input, FLAT, PLACES);
        let (info_at, info_len) = (self.port.sizes()[PLACES - 2], self.port.sizes()[PLACES - 1]);
        let port = if number == 0 { Ok(self.shown(input, info_at, info_len)) } else { Err(number) };
        Both { octets: input.to_vec(), canonical, port, info_at, rust: limited(input, oracle::read(input)) }
    }

    /// What the last decode left of this input.
    fn shown(&mut self, input: &[u8], info_at: usize, info_len: usize) -> Shown {
        let info = input.get(info_at..).and_then(|rest| rest.get(..info_len));
        if info.is_none() {
            let owed = || format!("in the {} octets of the input", input.len());
            self.differ("info", owed, |_| format!("{} octets from {} on", info_len, info_at));
        }
        Shown { record: padded(self.port.output()), info: info.unwrap_or(&[]).to_vec() }
    }

    /// A canonical input, and another beside it (document 02, M-107). Where they are of one length, they have the same frame and info just
    /// where they are the same octets but for excepted bits; and two canonical inputs with the same are the same, whatever their lengths.
    pub fn pair(&mut self, way: Way, one: &Both, other: &Both) -> Vec<Difference> {
        if !one.canonical || one.port.is_err() {
            self.differ("the first input", || "canonical and accepted".to_string(), |_| show::beside(one));
            return self.finish();
        }
        let outcome = one.outcome(other);
        self.seen.pairs.outcome(way, outcome);
        if one.octets.len() == other.octets.len() {
            let bits = domain::differing(&one.octets, &other.octets);
            self.of_one_length(way, one, other, &bits);
            if let (Way::Bit, [(at, bit)], Ok(shown)) = (way, &bits[..], &one.port) {
                self.seen.pairs.bit(&one.octets, &shown.record, *at, *bit);
            }
        }
        if one.agrees(other) && other.canonical && one.octets != other.octets {
            let owed = || "one input alone is canonical with this frame and info".to_string();
            self.differ("two canonical inputs", owed, |_| format!("{} and {}", show::hex(&one.octets), show::hex(&other.octets)));
        }
        self.finish()
    }

    /// Two inputs that differ in these bits. What the Rust's frame lacks is reserved bits and the octet of a layer 3 identifier, and nothing
    /// else. A kind that it does not know has no frame of the Rust's at all.
    fn of_one_length(&mut self, way: Way, one: &Both, other: &Both, bits: &[(usize, u8)]) {
        let excepted = domain::excepted(&one.octets);
        let lacked = domain::lacked(&one.octets, &other.octets);
        let same = domain::are_among(bits, &excepted);
        let is_known = domain::added_in(&one.octets).is_none();
        let same_by_rust = is_known && domain::are_among(bits, &[excepted, lacked].concat());
        let say = |same: bool| format!("{} where the bits {} differ", if same { "the same" } else { "not the same" }, show::bits(bits));
        if one.agrees(other) != same || same && one.info_at != other.info_at {
            let says = |_: &Checker| format!("{} and {}", show::beside(one), show::beside(other));
            self.differ("frame and info of two inputs", || say(same), says);
        }
        if one.agrees_by_rust(other) != same_by_rust {
            self.differ("B6, B7 and B9, in the Rust's frames of two inputs", || say(same_by_rust), |_| format!("the Rust: {}", say(!same_by_rust)));
        }
        if one.agrees_by_rust(other) && !one.agrees(other) {
            self.seen.pairs.only_port(way, &one.octets, bits);
        }
    }

    /// The refusals that are `probe`'s own: a lent buffer shorter than what is to be left there.
    pub fn short_buffers(&mut self, input: &[u8], short: usize) -> Vec<Difference> {
        let record = short % FLAT;
        for entry in [Entry::Decoder, Entry::OldCapture] {
            let number = self.port.decode(entry, input, record, PLACES);
            self.untouched(&format!("probe_decode ({:?}), short record", entry), number);
            let number = self.port.decode(entry, input, FLAT, short % PLACES);
            self.untouched(&format!("probe_decode ({:?}), short places", entry), number);
        }
        let number = self.port.encode_into(input, input, FLAT, 0);
        self.untouched("probe_encode, no length", number);
        let number = self.port.again(input, record);
        self.untouched("probe_again, short record", number);
        let number = self.port.print_into(input, FLAT, 0);
        self.untouched("probe_print, no length", number);
        let number = self.port.from_str(input, short % ADDRESS);
        self.untouched("probe_from_str, short address", number);
        let number = self.port.from_parts(input, 0, short % ADDRESS);
        self.untouched("probe_from_parts, short address", number);
        let number = self.port.simple_ui(input, input, record);
        self.untouched("probe_simple_ui, short record", number);
        let number = self.port.default(record);
        self.untouched("probe_default, short record", number);
        let number = self.port.content(input, short % CONTENT);
        self.untouched("probe_content, short content", number);
        let number = self.port.encode_content_into(input, input, FLAT, 0);
        self.untouched("probe_content_encode, no length", number);
        let number = self.port.hops(input, short % HOPS);
        self.untouched("probe_hops, short numbers", number);
        self.finish()
    }

    fn untouched(&mut self, what: &str, number: u32) {
        if number != 24 || !self.port.output_is(&[]) || !self.port.sizes_are(&[]) {
            let says = |me: &Checker| format!("number {}, or something was written: {}", number, me.output(0));
            self.differ(what, || "number 24, nothing touched".to_string(), says);
        }
    }
}

/// What the entry for old captures owes: the frame that stands behind any nulls, or the number of its refusal; 9 for nine or more repeaters.
pub fn read_old(input: &[u8]) -> Result<Ax25Frame, u32> {
    limited(input, oracle::known(input, oracle::read(input)))
}

/// What was read, or the number of its refusal; 9 for nine or more repeaters.
fn limited(input: &[u8], read: Result<Ax25Frame, Refusal>) -> Result<Ax25Frame, u32> {
    match read {
        _ if domain::repeaters(input) > flat::REPEATERS => Err(9),
        read => read.map_err(|refusal| refusal.number),
    }
}

/// What decoding owes: the same, but 10 where nulls stand before the frame.
pub fn decoded(input: &[u8]) -> Result<Ax25Frame, u32> {
    if domain::is_nulled(input) { Err(10) } else { read_old(input) }
}

/// What relaying owes: the due place, which is to be marked, or the number of the first refusal that holds.
pub fn owed_of_relay(own: &Own, read: &Result<Ax25Frame, u32>) -> Result<usize, u32> {
    let address = domain::own_address(&own.callsign, own.ssid).ok_or(22_u32)?;
    let frame = read.as_ref().map_err(|&number| number)?;
    domain::relay(&flat::of_frame(frame), &address)
}

/// The record of this flat content, octets past its end being 0, behind plain addresses.
pub fn with_plain_addresses(content: &[u8]) -> Flat {
    let mut record = records::base(flat::I);
    record[KIND..].copy_from_slice(&padded::<CONTENT>(content));
    record
}

/// The octets, and 0 past their end.
pub fn padded<const N: usize>(octets: &[u8]) -> [u8; N] {
    let mut whole = [0; N];
    let len = octets.len().min(N);
    whole[..len].copy_from_slice(&octets[..len]);
    whole
}
