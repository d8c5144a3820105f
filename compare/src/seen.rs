//! What a run has met, so that a run that never met a case says so.

use crate::check::Stretch;
use crate::domain::{self, Listed, ADDED, LISTED, RESERVED_BITS, RUST_LAYER_3};
use crate::flat::*;
use crate::kiss::{self, FEND, FESC, LONGEST, PORTS, TFEND, TFESC};
use crate::lent::{Room, ROOMS};
use crate::links::{self, Verdict, MOST, NUMBERS, REFUSALS, UP, VERDICTS};
use crate::oracle::Decode;
use crate::pairs::{Outcome, Way, OUTCOMES, WAYS};
use crate::parts::{Call, Filled, Inside, Outside, INSIDES, NOT_INSIDE, OUTSIDES};
use crate::port::{Link, State};
use crate::reasons::{self, Reason, REASONS};
use crate::relays::Own;
use crate::show;
use ax25::frame::Ax25Frame;

/// The numbers of documents 01 and 02 that each kind of input can give.
const DECODE_NUMBERS: [u32; 10] = [0, 1, 2, 3, 4, 5, 7, 8, 9, 10];
/// The same of an old capture.
const OLD_NUMBERS: [u32; 9] = [0, 1, 2, 3, 4, 5, 7, 8, 9];
/// The one that none can give any more (document 02, M-109), while the Rust still does.
const NEVER: u32 = 6;
/// Tables by such a number.
const BY_NUMBER: usize = 11;
const WRITE_NUMBERS: [u32; 4] = [21, 22, 23, 25];
const TEXT_NUMBERS: [u32; 6] = [0, 31, 32, 33, 34, 35];
const PRINT_NUMBERS: [u32; 2] = [0, 22];
/// The numbers of content alone, read and written.
const CONTENT_NUMBERS: [u32; 7] = [0, 4, 5, 7, 8, 23, 25];
/// The numbers that writing an input again, side by side with it, can give.
const BESIDE_NUMBERS: [u32; 11] = [0, 1, 2, 3, 4, 5, 7, 8, 9, 10, 24];
/// Those of the relay: the refusals in their order.
const RELAY_NUMBERS: [u32; 14] = [0, 22, 1, 10, 2, 3, 4, 9, 5, 7, 8, 41, 43, 42];
/// Those of them that an accepted frame gets, by its route.
const ROUTE_NUMBERS: [u32; 4] = [0, 41, 43, 42];
/// Those of a link that is offered a frame: the refusals in their order.
const LINK_NUMBERS: [u32; 14] = [0, 22, 72, 73, 71, 1, 10, 2, 3, 4, 9, 5, 7, 8];
/// Those of a KISS packet, read and written.
const PACKET_NUMBERS: [u32; 7] = [0, 51, 52, 53, 54, 55, 56];
const PACKET_WRITE_NUMBERS: [u32; 2] = [0, 56];
const TABLE: usize = 64;
/// The places of a search by eights that are looked at: three turns.
const SEARCHED: usize = 24;

/// The rooms that can be lent for one octet.
const ROOMS_OF_ONE: &[(Room, &str)] = &[ROOMS[0], ROOMS[1], ROOMS[3]];

/// A count for each kind of room.
type Rooms = [u64; ROOMS.len()];

/// A count for each octet of a layer 3 identifier, in I and in UI.
type Octets = [[u64; 256]; 2];

/// The writers that write such an octet, the first ones.
const OCTET_WRITERS: usize = 5;

/// A count for each setting of the reserved bits, in each address of a frame.
type Settings = [[u64; ONES as usize + 1]; ADDRESSES];

/// What writes.
#[derive(Clone, Copy)]
pub enum Writer {
    /// The loader, from octets off the air.
    Reencode,
    /// `probe`, from the record that was read of them.
    Read,
    /// `probe`, from a record that was made up.
    MadeUp,
    /// `probe`, content alone.
    Content,
    /// Either, with the output close to the input.
    Beside,
    Print,
    /// The data of a KISS packet that is read.
    PacketRead,
    PacketWrite,
}

const WRITERS: [(Writer, &str); 8] = [
    (Writer::Reencode, "re-encoding"),
    (Writer::Read, "writing a record that was read"),
    (Writer::MadeUp, "writing a record that was made up"),
    (Writer::Content, "writing content alone"),
    (Writer::Beside, "writing side by side"),
    (Writer::Print, "printing"),
    (Writer::PacketRead, "reading a KISS packet"),
    (Writer::PacketWrite, "writing a KISS packet"),
];

/// Where a kind that the Rust does not know is met (B9).
#[derive(Clone, Copy)]
pub enum Met {
    Decoder,
    Canonical,
    NotCanonical,
    OldCapture,
    BehindNulls,
    Nine,
    Ten,
    Content,
    Again,
    Reencode,
    Read,
    MadeUp,
    ContentWritten,
    Beside,
    Needless,
    NeedlessContent,
    Relayed,
    UsedUp,
    BrokenMarks,
    AnotherStation,
    RelayTen,
}

/// What stands behind the control octet of such a kind.
#[derive(Clone, Copy)]
enum Behind {
    /// Info, or a tail where the kind has none; and nothing.
    Any,
    /// Info where the kind has it; and nothing.
    Info,
    Nothing,
    /// Info where the kind has none.
    Needless,
}

impl Behind {
    /// Whether something behind the control octet, or nothing, has to be met with a kind.
    fn is_needed(self, kind: u8, something: bool) -> bool {
        match self {
            Behind::Any => true,
            Behind::Info => !something || has_info(kind),
            Behind::Nothing => !something,
            Behind::Needless => something && !has_info(kind),
        }
    }
}

const METS: [(Met, &str, Behind); 21] = [
    (Met::Decoder, "decoding", Behind::Any),
    (Met::Canonical, "canonical", Behind::Info),
    (Met::NotCanonical, "not canonical", Behind::Any),
    (Met::OldCapture, "old capture without nulls", Behind::Any),
    (Met::BehindNulls, "old capture behind nulls", Behind::Any),
    (Met::Nine, "decoding refused by 9", Behind::Any),
    (Met::Ten, "decoding refused by 10", Behind::Any),
    (Met::Content, "content alone", Behind::Any),
    (Met::Again, "a record read again", Behind::Nothing),
    (Met::Reencode, "re-encoding", Behind::Info),
    (Met::Read, "writing a record that was read", Behind::Info),
    (Met::MadeUp, "writing a record that was made up", Behind::Info),
    (Met::ContentWritten, "writing content alone", Behind::Info),
    (Met::Beside, "writing side by side", Behind::Info),
    (Met::Needless, "writing refused by 23", Behind::Needless),
    (Met::NeedlessContent, "writing content alone refused by 23", Behind::Needless),
    (Met::Relayed, "passed on", Behind::Any),
    (Met::UsedUp, "relay refused by 41", Behind::Any),
    (Met::BrokenMarks, "relay refused by 43", Behind::Any),
    (Met::AnotherStation, "relay refused by 42", Behind::Any),
    (Met::RelayTen, "relay refused by 10", Behind::Any),
];

/// By kind, P/F, and nothing behind the control octet or something.
type AddedKinds = [[[u64; 2]; 2]; ADDED.len()];

/// How often each case of a record was written, by the kind of room.
#[derive(Default)]
struct Written {
    kinds: [Rooms; KINDS.len()],
    marks: [Rooms; 3],
    pids: [Rooms; 16],
    routes: [Rooms; REPEATERS + 1],
    /// By kind, a sequence number of 8 or more.
    large: [Rooms; KINDS.len()],
}

/// What of KISS packets was met.
#[derive(Default)]
struct Packets {
    /// By port, those that were read, and those that were written from a port and data.
    ports: [[u64; PORTS as usize]; 2],
    /// By port from 12 on, those that were refused by 56.
    ports_over: [u64; 4],
    /// By command from 1 on, those that were refused by 54; whether the port was over 11 too.
    commands: [u64; 15],
    commands_over: [u64; 2],
    /// A type octet that was escaped: C0, DB.
    escaped_types: [u64; 2],
    /// Those that were read, without data and with it; and with C0, DB, both in the data.
    data: [u64; 2],
    escapes: [u64; 3],
    /// 51 for nothing at all, for another first octet.
    openings: [u64; 2],
    /// 52 for DB before C0, before another octet, as the last.
    bad_escapes: [u64; 3],
    /// 53 for a lacking C0, for octets after it.
    endings: [u64; 2],
    /// By number from 51 on, no room for the data of a refused packet, less than the packet and more; 56 of the writer, beside its data.
    refused_rooms: [[u64; 3]; 6],
    write_refused_rooms: [u64; 3],
}

impl Packets {
    fn read(&mut self, port: u8, data: &[u8]) {
        count(&mut self.ports[0], port.into());
        self.data[usize::from(!data.is_empty())] += 1;
        let has = [data.contains(&FEND), data.contains(&FESC)];
        let cells = [has[0], has[1], has[0] && has[1]];
        self.escapes.iter_mut().zip(cells).for_each(|(cell, met)| *cell += u64::from(met));
    }

    fn refused(&mut self, packet: &[u8], number: u32) {
        match number {
            51 => self.openings[usize::from(!packet.is_empty())] += 1,
            52 => self.bad_escapes[bad_escape(packet)] += 1,
            53 => self.endings[usize::from(packet[1..].contains(&FEND))] += 1,
            54 => {
                let kind = self.kind(packet);
                count(&mut self.commands, usize::from(kind & 0x0F) - 1);
                self.commands_over[usize::from(kind >> 4 >= PORTS)] += 1;
            }
            56 => {
                let port = self.kind(packet) >> 4;
                count(&mut self.ports_over, usize::from(port - PORTS));
            }
            _ => {}
        }
    }

    /// The type octet of a packet that has one.
    fn kind(&mut self, packet: &[u8]) -> u8 {
        if packet[1] != FESC {
            return packet[1];
        }
        let which = usize::from(packet[2] == TFESC);
        self.escaped_types[which] += 1;
        [FEND, FESC][which]
    }

    fn missing(&self, missing: &mut Missing) {
        missing.cases("KISS packet read on port", &self.ports[0]);
        missing.cases("KISS packet written on port", &self.ports[1]);
        missing.cases("KISS packet refused by 56, from port 12 on: case", &self.ports_over);
        missing.cases("KISS packet refused by 54, from command 1 on: case", &self.commands);
        missing.cases("KISS packet refused by 54, port to 11 and over it: case", &self.commands_over);
        missing.cases("KISS type escaped, C0 and DB: case", &self.escaped_types);
        missing.cases("KISS packet read without data and with it: case", &self.data);
        missing.cases("KISS packet read with C0, DB, both in its data: case", &self.escapes);
        missing.cases("KISS packet refused by 51, empty or with another first octet: case", &self.openings);
        missing.cases("KISS packet refused by 52, DB before C0, before another octet, last: case", &self.bad_escapes);
        missing.cases("KISS packet refused by 53, no C0 or octets after it: case", &self.endings);
        for (number, rooms) in (51..).zip(&self.refused_rooms) {
            missing.cases(&format!("KISS packet refused by {} with no room, less than the packet, more: case", number), rooms);
        }
        missing.cases("KISS packet not written by 56 with no room, less than the data, more: case", &self.write_refused_rooms);
    }
}

/// What follows the first DB that is no escape: C0, another octet, nothing.
fn bad_escape(packet: &[u8]) -> usize {
    let bad = packet.windows(2).find(|pair| pair[0] == FESC && ![TFEND, TFESC].contains(&pair[1]));
    bad.map_or(2, |pair| usize::from(pair[1] != FEND))
}

/// What of KISS streams was met.
#[derive(Default)]
pub struct Streams {
    pub streams: u64,
    pub octets: u64,
    pub given: u64,
    pub dropped: u64,
    /// Dropped by 52, 54, 56, and as too long.
    causes: [u64; 4],
    /// By port, and without data, with some, with as much as there is room for.
    ports: [u64; PORTS as usize],
    lengths: [u64; 3],
    /// By phase, states at a piece's end with more to come.
    phases: [u64; 6],
    /// No octet before the first C0, some, and a DB among them.
    before: [u64; 3],
    /// A C0 that two packets share, two C0 in a row, and a C0 behind a DB.
    delimiters: [u64; 3],
    /// A count that stops at 65,535, reached.
    stopped: [u64; 1],
    /// Started from a fresh state, a length over 1,024, a port over 11, an unknown phase.
    starts: [u64; 4],
}

impl Streams {
    fn stream(&mut self, start: &State, stretch: &Stretch, owed: &kiss::Stream) {
        let octets = stretch.octets;
        self.streams += u64::from(stretch.at == 0);
        self.octets += octets.len() as u64;
        self.given += owed.packets.len() as u64;
        self.dropped += owed.dropped.len() as u64;
        for (cell, number) in self.causes.iter_mut().zip([52, 54, 56, 24]) {
            *cell += owed.dropped.iter().filter(|&&dropped| dropped == number).count() as u64;
        }
        for (_, (port, data)) in &owed.packets {
            count(&mut self.ports, (*port).into());
            self.lengths[if data.is_empty() { 0 } else { 1 + usize::from(data.len() == LONGEST) }] += 1;
        }
        let before = octets.split(|&octet| octet == FEND).next().unwrap_or(&[]);
        self.before[if before.is_empty() { 0 } else { 1 + usize::from(before.contains(&FESC)) }] += 1;
        let shared = octets.windows(3).any(|three| three[0] != FEND && three[1] == FEND && three[2] != FEND);
        let two = |pair: [u8; 2]| octets.windows(2).any(|two| two == pair);
        let cells = [shared, two([FEND, FEND]), two([FESC, FEND])];
        self.delimiters.iter_mut().zip(cells).for_each(|(cell, met)| *cell += u64::from(met));
        self.stopped[0] += u64::from(owed.dropped.len() + usize::from(start.dropped) > u16::MAX.into());
        let wrong = [usize::from(start.length) > LONGEST, start.port >= PORTS, start.phase > 5];
        let cells = [!wrong.contains(&true), wrong[0], wrong[1], wrong[2]];
        self.starts.iter_mut().zip(cells).for_each(|(cell, met)| *cell += u64::from(met));
    }

    fn missing(&self, missing: &mut Missing) {
        missing.cases("KISS stream drops by 52, 54, 56 and a packet that is too long: case", &self.causes);
        missing.cases("KISS stream gives out on port", &self.ports);
        missing.cases("KISS stream gives out no data, some, as much as there is room for: case", &self.lengths);
        missing.cases("KISS stream cut in phase", &self.phases);
        missing.cases("KISS stream with nothing before the first C0, octets, a DB among them: case", &self.before);
        missing.cases("KISS stream with a shared C0, two in a row, one behind a DB: case", &self.delimiters);
        missing.cases("KISS stream whose count stops: case", &self.stopped);
        missing.cases("KISS stream from a fresh state, a length over 1,024, a port over 11, an unknown phase: case", &self.starts);
    }
}

/// How many nulls an old capture starts with.
const NULLS: [&str; 3] = ["without nulls", "behind one null", "behind more nulls"];

/// What of old captures was met (document 02, M-108).
#[derive(Default)]
pub struct OldCaptures {
    /// Those with nulls before something.
    pub nulled: u64,
    /// By number, without nulls, behind one and behind more.
    numbers: [[u64; BY_NUMBER]; NULLS.len()],
    /// Frames that were read behind nulls, by kind, mark and repeaters; and in each kind that has it, without info and with it.
    kinds: [u64; UNKNOWN_CONTENT as usize],
    marks: [u64; 3],
    routes: [u64; REPEATERS + 1],
    infos: [[u64; 2]; INFO_KINDS.len()],
}

/// The kinds that are read and have info.
const INFO_KINDS: [u8; 4] = [I, UI, XID, TEST];

/// The case of a kind that has info.
fn info_kind(record: &Flat) -> Option<usize> {
    INFO_KINDS.iter().position(|&kind| kind == record[KIND])
}

fn info_names() -> impl Iterator<Item = &'static str> {
    INFO_KINDS.iter().map(|&kind| KINDS[usize::from(kind)])
}

impl OldCaptures {
    /// A capture, which owes this.
    pub fn capture(&mut self, input: &[u8], owed: &Decode) {
        let nulls = domain::nulls(input);
        count(&mut self.numbers[nulls.min(2)], owed.number as usize);
        self.nulled += u64::from(domain::is_nulled(input));
        if let (1.., Some(record)) = (nulls, &owed.record) {
            count(&mut self.kinds, record[KIND].into());
            count(&mut self.marks, record[MARK].into());
            count(&mut self.routes, record[COUNT].into());
            if let Some(kind) = info_kind(record) {
                self.infos[kind][usize::from(!owed.info(input).is_empty())] += 1;
            }
        }
    }

    /// How often each number was met.
    pub fn counts(&self) -> Vec<(u32, u64)> {
        OLD_NUMBERS.iter().map(|&number| (number, self.numbers.iter().map(|of| of[number as usize]).sum())).collect()
    }

    fn missing(&self, missing: &mut Missing) {
        for (nulls, numbers) in NULLS.iter().zip(&self.numbers) {
            missing.numbers(&format!("old capture {}, number", nulls), &OLD_NUMBERS, numbers);
        }
        missing.cases("old capture behind nulls, kind", &self.kinds);
        missing.cases("old capture behind nulls, mark", &self.marks);
        missing.cases("old capture behind nulls, repeaters", &self.routes);
        for (kind, infos) in info_names().zip(&self.infos) {
            missing.cases(&format!("old capture behind nulls, {} without info and with it: case", kind), infos);
        }
    }
}

/// How many inputs were accepted, how many of these are canonical, and the others by their reason.
#[derive(Clone, Copy, Default)]
pub struct Spellings {
    pub accepted: u64,
    pub canonical: u64,
    reasons: [u64; REASONS.len()],
}

impl Spellings {
    fn count(&mut self, canonical: bool, reason: Reason) {
        self.accepted += 1;
        self.canonical += u64::from(canonical);
        self.reasons[reason as usize] += 1;
    }

    /// What came since an earlier count.
    pub fn since(&self, earlier: &Spellings) -> Spellings {
        let mut reasons = self.reasons;
        reasons.iter_mut().zip(earlier.reasons).for_each(|(count, before)| *count -= before);
        Spellings { accepted: self.accepted - earlier.accepted, canonical: self.canonical - earlier.canonical, reasons }
    }

    /// How often each reason but none was owed, by its word.
    pub fn reasons(&self) -> Vec<(&'static str, u64)> {
        REASONS.iter().zip(self.reasons).skip(1).map(|(&(_, word), count)| (word, count)).collect()
    }
}

/// Repeaters are told apart up to so many where a place is counted: these stand for more.
const MANY: usize = REPEATERS + 2;

/// The refusals that are about a place behind an address field of two addresses and more, and the repeaters that each is met with.
const PLACED: [(u32, std::ops::RangeInclusive<usize>); 5] =
    [(4, 0..=MANY), (9, REPEATERS + 1..=MANY), (5, 0..=REPEATERS), (7, 0..=REPEATERS), (8, 0..=REPEATERS)];

/// The bits of FRMR that nothing reads, of its first and of its second info octet together.
const FIXED: u8 = 0xF1;

/// What of reasons was met (document 02, M-110).
#[derive(Default)]
struct Reasons {
    /// Accepted inputs by the reason that is owed, and by another behind it in the order that holds too.
    both: [[u64; REASONS.len()]; REASONS.len()],
    /// By how many octets are left over, from one on; marks both clear and both set; tails by kind; FRMR's bits, each set alone.
    left_over: [u64; GROUP - 1],
    marks: [u64; 2],
    tails: [u64; KINDS.len()],
    fixed: [u64; 8],
    /// By the place of the end, refusals by 3; by number and repeaters, others with none and some octets left over.
    ends: [u64; 13],
    places: [[[u64; 2]; MANY + 1]; BY_NUMBER],
}

impl Reasons {
    /// An accepted input that owes this reason.
    fn accepted(&mut self, input: &[u8], record: &Flat, owed: Reason) {
        match owed {
            Reason::None => return,
            Reason::Leftover => self.left_over[reasons::span(input) % GROUP - 1] += 1,
            Reason::Marks => self.marks[usize::from(input[domain::seventh(0, 0)] >> 7)] += 1,
            Reason::Tail => count(&mut self.tails, record[KIND].into()),
            Reason::Fixed => {
                let set = domain::excepted(input).iter().fold(0, |set, &(at, bits)| set | input[at] & bits);
                if set.is_power_of_two() {
                    self.fixed[set.trailing_zeros() as usize] += 1;
                }
            }
        }
        for &(other, _) in &REASONS[owed as usize + 1..] {
            self.both[owed as usize][other as usize] += u64::from(other.holds(input));
        }
    }

    fn refused(&mut self, input: &[u8], number: u32) {
        let span = reasons::span(input);
        if number == 3 {
            count(&mut self.ends, span - 1);
        } else if PLACED.iter().any(|(placed, _)| *placed == number) {
            let repeaters = ((span - 14) / GROUP).min(MANY);
            self.places[number as usize][repeaters][usize::from(span % GROUP > 0)] += 1;
        }
    }

    fn missing(&self, missing: &mut Missing) {
        for &(one, word) in &REASONS[1..] {
            for &(other, behind) in &REASONS[one as usize + 1..] {
                // A kind that has such bits has no tail in the short mode.
                if (one, other) != (Reason::Tail, Reason::Fixed) && self.both[one as usize][other as usize] == 0 {
                    missing.0.push(format!("reason {} where {} holds too", word, behind));
                }
            }
        }
        missing.cases("reason leftover, from one octet on: case", &self.left_over);
        missing.cases("reason marks, both clear and both set: case", &self.marks);
        let kinds = (0..UNKNOWN_CONTENT).filter(|&kind| !has_info(kind) && kind != FRMR).map(usize::from);
        missing.0.extend(kinds.filter(|&kind| self.tails[kind] == 0).map(|kind| format!("reason tail, {}", KINDS[kind])));
        let bits = (0..8).filter(|&bit| FIXED >> bit & 1 == 1 && self.fixed[bit] == 0);
        missing.0.extend(bits.map(|bit| format!("reason fixed, bit {} of FRMR's info alone", bit)));
        missing.cases("refused by 3 with the end at", &self.ends);
        for (number, routes) in PLACED {
            for repeaters in routes {
                let places = &self.places[number as usize][repeaters];
                missing.cases(&format!("refused by {} behind {} repeaters, with none or some octets left over: case", number, repeaters), places);
            }
        }
    }
}

/// The kinds that are read: all but the last.
const READ: usize = UNKNOWN_CONTENT as usize;

/// How many records `ax25_captures` was to fill, in how many calls: parts that are not inside, refused parts, and the others by kind.
#[derive(Clone, Copy, Default)]
pub struct Records {
    pub calls: u64,
    pub records: u64,
    pub not_inside: u64,
    pub refused: u64,
    kinds: [u64; READ],
}

impl Records {
    pub fn count(&mut self, owed: &Filled) {
        self.records += 1;
        match owed.number {
            0 => self.kinds[usize::from(owed.kind)] += 1,
            NOT_INSIDE => self.not_inside += 1,
            _ => self.refused += 1,
        }
    }

    pub fn add(&mut self, other: &Records) {
        self.calls += other.calls;
        self.records += other.records;
        self.not_inside += other.not_inside;
        self.refused += other.refused;
        self.kinds.iter_mut().zip(other.kinds).for_each(|(count, more)| *count += more);
    }

    pub fn kinds(&self) -> Vec<(&'static str, u64)> {
        KINDS.iter().copied().zip(self.kinds).collect()
    }
}

/// What of `ax25_captures` was met (document 02, M-111).
#[derive(Default)]
pub struct Parts {
    pub records: Records,
    /// Decoded inputs that became parts.
    pub inputs: u64,
    /// Calls with no record, with one, with two and with more.
    calls: [u64; 4],
    /// Refused parts by number; accepted ones by kind, not canonical and canonical.
    numbers: [u64; BY_NUMBER],
    spelled: [[u64; 2]; READ],
    outside: [u64; OUTSIDES.len()],
    inside: [u64; INSIDES.len()],
    /// A record by its kind, or by being refused, the last case, and by that of the record before it.
    behind: [[u64; READ + 1]; READ + 1],
}

impl Parts {
    /// A call, and what its records owe.
    pub fn call(&mut self, call: &Call) {
        self.records.calls += 1;
        self.calls[call.parts.len().min(3)] += 1;
        let mut before = None;
        for (part, owed) in &call.parts {
            self.records.count(owed);
            let case = if owed.number == 0 { usize::from(owed.kind) } else { READ };
            if let Some(before) = before.replace(case) {
                self.behind[before][case] += 1;
            }
            if owed.number == NOT_INSIDE {
                self.outside[Outside::of(part, call.buffer.len()) as usize] += 1;
                continue;
            }
            self.inside[Inside::of(part, call.buffer.len()) as usize] += 1;
            match owed.number {
                0 => self.spelled[case][usize::from(owed.canonical)] += 1,
                number => count(&mut self.numbers, number as usize),
            }
        }
    }

    fn missing(&self, missing: &mut Missing) {
        missing.cases("one call over no part, one, two, more: case", &self.calls);
        missing.numbers("one call over many parts, number", &DECODE_NUMBERS[1..], &self.numbers);
        for (kind, spelled) in KINDS.iter().zip(&self.spelled) {
            missing.cases(&format!("one call over many parts, {} that is not canonical, canonical: case", kind), spelled);
        }
        missing.named("one call over many parts, not inside", OUTSIDES.iter().map(|(_, name)| name), &self.outside);
        missing.named("one call over many parts, inside", INSIDES.iter().map(|(_, name)| name), &self.inside);
        let names = || KINDS[..READ].iter().chain(&["refused"]);
        for (before, cases) in names().zip(&self.behind) {
            missing.named(&format!("one call over many parts, behind {}", before), names(), cases);
        }
    }
}

/// How many links were followed through captures; what the I frames between their stations are, in the order of `VERDICTS`; and those of no
/// such link.
#[derive(Clone, Copy, Default)]
pub struct Followed {
    pub links: u64,
    pub counts: [u64; VERDICTS.len()],
    pub not_followed: u64,
}

impl Followed {
    /// A link, by its record.
    pub fn count(&mut self, link: &Link) {
        self.links += 1;
        self.counts.iter_mut().zip(link.counts).for_each(|(count, more)| *count += u64::from(more));
    }

    pub fn add(&mut self, other: &Followed) {
        self.links += other.links;
        self.counts.iter_mut().zip(other.counts).for_each(|(count, more)| *count += more);
        self.not_followed += other.not_followed;
    }
}

/// The states of a link; the last stands for all numbers over 3.
const LINK_STATES: [&str; 5] = ["idle", "asked by a", "asked by b", "up", "over 3"];
/// Who sends a frame to whom.
const SENDERS: [&str; 3] = ["a", "b", "others"];
/// Which of the two an address of a frame is.
const ENDS: [&str; 3] = ["a", "b", "another"];
/// What makes a record unsound.
const UNSOUND: [&str; 5] =
    ["a sum of one more than offered", "a sum of more", "a sum of over 32 bits", "a number from a over 7", "a number from b over 7"];
/// How many frames were offered before: none, fewer than two less than the most, and then each.
const OFFERED: [&str; 5] = ["none", "some", "one less than the most", "the most", "more"];

/// What of `ax25_link_offer` was met (document 02, M-112).
#[derive(Default)]
pub struct Links {
    /// By number, as `LINK_NUMBERS` has them; the last case is any other.
    numbers: [u64; LINK_NUMBERS.len() + 1],
    /// Accepted frames by state, sender and kind.
    kinds: [[[u64; READ]; SENDERS.len()]; LINK_STATES.len()],
    /// I frames between the two by verdict, sender and N(S).
    verdicts: [[[u64; NUMBERS as usize]; 2]; VERDICTS.len()],
    /// By sender, while up: one less than expected without a memory; in order, and repeated, with a memory over 1.
    memories: [[u64; 3]; 2],
    /// UA that makes the link up, by sender.
    ups: [u64; 2],
    /// Source and destination of accepted frames.
    ends: [[u64; ENDS.len()]; ENDS.len()],
    /// Frames of others in which an address is another for its SSID alone, for its callsign alone.
    almost: [u64; 2],
    /// Frames between the two: with the record's reserved bits, with others; by mark, P/F and repeaters.
    reserved: [u64; 2],
    marks: [u64; 3],
    polls: [u64; 2],
    routes: [u64; REPEATERS + 1],
    /// Each refusal of a record, by one behind it that holds too; the last of these is a frame that decoding refuses.
    behind: [[u64; REFUSALS.len() + 1]; REFUSALS.len()],
    /// 22 for each octet of each station, alone.
    not_encodable: [[u64; ADDRESS]; 2],
    /// 72 with the same reserved bits, with others.
    equal: [u64; 2],
    /// 73 by state and by what alone makes the record unsound.
    unsound: [[u64; UNSOUND.len()]; LINK_STATES.len()],
    /// By what was offered before, where nothing but 71 may refuse the record.
    offered: [u64; OFFERED.len()],
}

impl Links {
    /// A frame, which is read so, offered to a record, and what is owed: the number and the record.
    pub fn offered(&mut self, link: &Link, read: &links::Read, (number, owed): &(u32, Link)) {
        self.numbers[LINK_NUMBERS.iter().position(|known| known == number).unwrap_or(LINK_NUMBERS.len())] += 1;
        match REFUSALS.iter().position(|(refusal, _)| refusal == number) {
            Some(first) => self.refused(first, link, read),
            None => {
                if let Ok(record) = read {
                    self.accepted(link, record, owed);
                }
            }
        }
        if ![22, 72, 73].contains(number) {
            let case = match link.offered {
                0 => 0,
                offered => offered.saturating_add(3).saturating_sub(MOST).clamp(1, 4) as usize,
            };
            self.offered[case] += 1;
        }
    }

    /// How many frames were offered, and how often each verdict was owed.
    pub fn counts(&self) -> (u64, [u64; VERDICTS.len()]) {
        (self.numbers.iter().sum(), self.verdicts.map(|senders| senders.iter().flatten().sum()))
    }

    fn state(link: &Link) -> usize {
        link.state.min(UP + 1) as usize
    }

    fn refused(&mut self, first: usize, link: &Link, read: &links::Read) {
        let later = REFUSALS.iter().map(|&(number, _)| links::holds(number, link)).chain([read.is_err()]);
        self.behind[first].iter_mut().zip(later).skip(first + 1).for_each(|(cell, holds)| *cell += u64::from(holds));
        let [a, b] = &link.stations;
        match REFUSALS[first].0 {
            22 => {
                let wrong: Vec<(usize, usize)> = (0..2).flat_map(|which| wrong_octets(&link.stations[which]).map(move |at| (which, at))).collect();
                if let [(which, at)] = wrong[..] {
                    self.not_encodable[which][at] += 1;
                }
            }
            72 => self.equal[usize::from(a[RESERVED] != b[RESERVED])] += 1,
            73 => {
                let over = links::sum(link).saturating_sub(link.offered.into());
                let wraps = over > 0 && links::sum(link) as u32 <= link.offered;
                let [from_a, from_b] = link.expected.map(|expected| expected >= NUMBERS);
                let causes = [over == 1, over > 1 && !wraps, wraps, from_a, from_b];
                if causes.iter().filter(|&&cause| cause).count() == 1 {
                    let cells = &mut self.unsound[Links::state(link)];
                    cells.iter_mut().zip(causes).for_each(|(cell, cause)| *cell += u64::from(cause));
                }
            }
            _ => {}
        }
    }

    fn accepted(&mut self, link: &Link, record: &Flat, owed: &Link) {
        let sender = links::sender(link, record);
        self.kinds[Links::state(link)][sender.unwrap_or(2)][usize::from(record[KIND])] += 1;
        let ends = links::ends(record);
        let [source, destination] = ends.map(|end| link.stations.iter().position(|station| domain::same_station(station, &end)).unwrap_or(2));
        self.ends[source][destination] += 1;
        let from = match sender {
            Some(from) => from,
            None => {
                for (end, station) in ends.iter().flat_map(|end| link.stations.iter().map(move |station| (end, station))) {
                    let other = [end[SSID] != station[SSID], end[..SSID] != station[..SSID]];
                    self.almost.iter_mut().enumerate().for_each(|(which, cell)| *cell += u64::from(other[which] && !other[1 - which]));
                }
                return;
            }
        };
        let as_recorded = ends.map(|end| end[RESERVED]) == [link.stations[from][RESERVED], link.stations[1 - from][RESERVED]];
        self.reserved[usize::from(!as_recorded)] += 1;
        count(&mut self.marks, record[MARK].into());
        count(&mut self.polls, record[POLL].into());
        count(&mut self.routes, record[COUNT].into());
        self.ups[from] += u64::from(owed.state == UP && link.state != UP);
        if let Some(verdict) = (0..VERDICTS.len()).find(|&verdict| owed.counts[verdict] != link.counts[verdict]) {
            let number = record[SEND].into();
            self.verdicts[verdict][from][record[SEND] as usize] += 1;
            let (verdict, _) = VERDICTS[verdict];
            let cells = [
                verdict == Verdict::Gap && links::is_last(number, link.expected[from]),
                verdict == Verdict::InOrder && link.moved[from] > 1,
                verdict == Verdict::Repeated && link.moved[from] > 1,
            ];
            self.memories[from].iter_mut().zip(cells).for_each(|(cell, met)| *cell += u64::from(met));
        }
    }

    fn missing(&self, missing: &mut Missing) {
        let absent = LINK_NUMBERS.iter().zip(&self.numbers).filter(|(_, &count)| count == 0);
        missing.0.extend(absent.map(|(number, _)| format!("link, number {}", number)));
        for (state, senders) in LINK_STATES.iter().zip(&self.kinds) {
            for (sender, kinds) in SENDERS.iter().zip(senders) {
                missing.named(&format!("link, {}, from {}", state, sender), KINDS.iter(), kinds);
            }
        }
        for ((_, verdict), senders) in VERDICTS.iter().zip(&self.verdicts) {
            for (sender, numbers) in SENDERS.iter().zip(senders) {
                missing.cases(&format!("link, {} from {}, N(S)", verdict, sender), numbers);
            }
        }
        for (sender, memories) in SENDERS.iter().zip(&self.memories) {
            missing.cases(&format!("link, from {}, a gap without a memory, in order and repeated with one over 1: case", sender), memories);
        }
        missing.named("link made up by", SENDERS.iter(), &self.ups);
        for (source, destinations) in ENDS.iter().zip(&self.ends) {
            missing.named(&format!("link, source {}, destination", source), ENDS.iter(), destinations);
        }
        missing.cases("link, an address that is another for its SSID alone, for its callsign alone: case", &self.almost);
        missing.cases("link, frames with its reserved bits, with others: case", &self.reserved);
        missing.cases("link, mark", &self.marks);
        missing.cases("link, P/F", &self.polls);
        missing.cases("link, repeaters", &self.routes);
        for (first, ((number, _), cells)) in REFUSALS.iter().zip(&self.behind).enumerate() {
            let names = REFUSALS.iter().map(|(_, name)| name).chain(&["a refused frame"]).skip(first + 1);
            missing.named(&format!("link, {} before", number), names, &cells[first + 1..]);
        }
        for (station, octets) in SENDERS.iter().zip(&self.not_encodable) {
            missing.cases(&format!("link, 22 for {}, octet", station), octets);
        }
        missing.cases("link, 72 with the same reserved bits, with others: case", &self.equal);
        for (state, causes) in LINK_STATES.iter().zip(&self.unsound) {
            missing.named(&format!("link, {}, 73 for", state), UNSOUND.iter(), causes);
        }
        missing.named("link, frames offered before", OFFERED.iter(), &self.offered);
    }
}

/// The octets of an address that keep it from being written.
fn wrong_octets(address: &FlatAddress) -> impl Iterator<Item = usize> + '_ {
    (0..ADDRESS).filter(move |&at| {
        let mut other = blank(0);
        other[at] = address[at];
        !domain::encodable(&other)
    })
}

/// What a bit of a canonical frame is part of.
#[derive(Clone, Copy)]
enum Part {
    Character,
    LowBit,
    End,
    NoEnd,
    Ssid,
    Reserved,
    Mark,
    Repeated,
    Control,
    Pid,
    Info,
    Flags,
    Numbers,
    Rejected,
}

/// Each with the bits that it may have in an octet.
const PARTS: [(Part, &str, u8); 14] = [
    (Part::Character, "a character", 0xFE),
    (Part::LowBit, "the low bit of a character's octet", 0x01),
    (Part::End, "the end bit of the last group", 0x01),
    (Part::NoEnd, "the end bit of another group", 0x01),
    (Part::Ssid, "an SSID", 0x1E),
    (Part::Reserved, "the reserved bits", RESERVED_BITS),
    (Part::Mark, "the destination's or the source's mark", 0x80),
    (Part::Repeated, "a repeater's mark", 0x80),
    (Part::Control, "the control octet", 0xFF),
    (Part::Pid, "the PID", 0xFF),
    (Part::Info, "info", 0xFF),
    (Part::Flags, "FRMR's first info octet", 0xFF),
    (Part::Numbers, "FRMR's second info octet", 0xFF),
    (Part::Rejected, "FRMR's third info octet", 0xFF),
];

impl Part {
    fn of(frame: &[u8], record: &Flat, at: usize, bit: u8) -> Part {
        let field = GROUP * places(record).count();
        let (group, place) = (at / GROUP, at % GROUP);
        match bit {
            _ if at >= field => Part::of_content(record[KIND], at - field),
            0x01 if place < SSID => Part::LowBit,
            _ if place < SSID => Part::Character,
            0x01 if frame[at] & 0x01 == 0 => Part::NoEnd,
            0x01 => Part::End,
            0x80 if group < 2 => Part::Mark,
            0x80 => Part::Repeated,
            _ if bit & RESERVED_BITS == 0 => Part::Ssid,
            _ => Part::Reserved,
        }
    }

    fn of_content(kind: u8, place: usize) -> Part {
        match (kind, place) {
            (_, 0) => Part::Control,
            (FRMR, 1) => Part::Flags,
            (FRMR, 2) => Part::Numbers,
            (FRMR, _) => Part::Rejected,
            (I | UI, 1) => Part::Pid,
            _ => Part::Info,
        }
    }
}

/// What of canonical inputs and others beside them was met (document 02, M-107).
#[derive(Default)]
pub struct Pairs {
    outcomes: [[u64; OUTCOMES.len()]; WAYS.len()],
    /// Bits that were changed alone, by what they are part of and by their place in the octet.
    parts: [[u64; 8]; PARTS.len()],
    /// The same by the frame: its kind, mark and repeaters; in I and in UI its PID, layer 3 with bit 5 being the last; and in each kind that
    /// has it, without info and with it.
    kinds: [u64; UNKNOWN_CONTENT as usize],
    marks: [u64; 2],
    routes: [u64; REPEATERS + 1],
    pids: [[u64; 17]; 2],
    infos: [[u64; 2]; INFO_KINDS.len()],
    /// A repeater's mark that was changed alone, clear and set.
    repeated: [u64; 2],
    /// Bit 5 and bit 6 of a group that were changed alone, by the group and the setting that they were changed in.
    reserved: [Settings; 2],
    /// Bits that the port's frame shows and the Rust's does not: of the PID (B6) and reserved ones (B7).
    pub only_port: [u64; 2],
    /// The same of pairs that were made in another way than by one bit.
    only_port_pairs: u64,
}

impl Pairs {
    pub fn outcome(&mut self, way: Way, outcome: Outcome) {
        self.outcomes[way as usize][outcome as usize] += 1;
    }

    /// A bit of the canonical frame with this record was changed alone.
    pub fn bit(&mut self, frame: &[u8], record: &Flat, at: usize, bit: u8) {
        let part = Part::of(frame, record, at, bit);
        self.parts[part as usize][bit.trailing_zeros() as usize] += 1;
        count(&mut self.kinds, record[KIND].into());
        count(&mut self.marks, record[MARK].into());
        count(&mut self.routes, record[COUNT].into());
        if has_pid(record) {
            let case = if is_layer_3(record) && record[PID_OCTET] & 0x20 != 0 { 16 } else { record[PID].into() };
            count(&mut self.pids[pid_kind(record)], case);
        }
        if let Some(kind) = info_kind(record) {
            // Where the kind has a PID, info follows that.
            let info_at = domain::pid_at(frame) + usize::from(has_pid(record));
            self.infos[kind][usize::from(frame.len() > info_at)] += 1;
        }
        match part {
            Part::Repeated => self.repeated[usize::from(frame[at] & 0x80 != 0)] += 1,
            Part::Reserved => self.reserved[usize::from(bit == 0x40)][at / GROUP][usize::from(domain::reserved_in(frame[at]))] += 1,
            _ => {}
        }
    }

    /// The port's frame shows that these bits of a canonical frame are others, and the Rust's does not.
    pub fn only_port(&mut self, way: Way, frame: &[u8], bits: &[(usize, u8)]) {
        match (way, bits) {
            (Way::Bit, [(at, _)]) => self.only_port[usize::from(*at < domain::pid_at(frame))] += 1,
            _ => self.only_port_pairs += 1,
        }
    }

    /// How often each way had each outcome, where it had it at all.
    pub fn counts(&self) -> Vec<(&'static str, Vec<(&'static str, u64)>)> {
        let named = |way: Way| OUTCOMES.iter().map(move |&(outcome, name)| (name, self.outcomes[way as usize][outcome as usize]));
        WAYS.iter().map(|&(way, name, _)| (name, named(way).filter(|(_, count)| *count > 0).collect())).collect()
    }

    fn missing(&self, missing: &mut Missing) {
        for &(way, name, needed) in &WAYS {
            let absent = needed.iter().filter(|&&outcome| self.outcomes[way as usize][outcome as usize] == 0);
            missing.0.extend(absent.map(|&outcome| format!("beside a canonical input, {}: {}", name, OUTCOMES[outcome as usize].1)));
        }
        for &(part, name, bits) in &PARTS {
            let absent = (0..8).filter(|&bit| bits >> bit & 1 == 1 && self.parts[part as usize][bit] == 0);
            missing.0.extend(absent.map(|bit| format!("changed alone, {}: bit {}", name, bit)));
        }
        missing.cases("bit changed alone, kind", &self.kinds);
        missing.cases("bit changed alone, mark", &self.marks);
        missing.cases("bit changed alone, repeaters", &self.routes);
        for (kind, pids) in ["I", "UI"].iter().zip(&self.pids) {
            missing.cases(&format!("bit changed alone, {} with PID (16: layer 3 with bit 5)", kind), pids);
        }
        for (kind, infos) in info_names().zip(&self.infos) {
            missing.cases(&format!("bit changed alone, {} without info and with it: case", kind), infos);
        }
        missing.cases("a repeater's mark changed alone, clear and set: case", &self.repeated);
        for (bit, settings) in [5, 6].iter().zip(&self.reserved) {
            missing.settings(&format!("bit {} changed alone", bit), settings);
        }
        missing.cases("a bit that the port shows and the Rust does not, of B6 and of B7: case", &self.only_port);
        missing.cases("a pair that the port tells apart and the Rust does not: case", &[self.only_port_pairs]);
    }
}

pub struct Seen {
    pub decodes: u64,
    pub writes: u64,
    pub spellings: Spellings,
    reasons: Reasons,
    pub parts: Parts,
    pub links: Links,
    decode_numbers: [u64; TABLE],
    write_numbers: [u64; TABLE],
    text_numbers: [u64; TABLE],
    print_numbers: [u64; TABLE],
    content_numbers: [u64; TABLE],
    beside_numbers: [u64; TABLE],
    /// By decode number, a refused input re-encoded into no room, into less than the input and into more.
    refused_rooms: [[u64; 3]; BY_NUMBER],
    read_kinds: [u64; KINDS.len()],
    /// By `Met`, the kinds that the Rust does not know.
    added: [AddedKinds; METS.len()],
    marks: [u64; 3],
    pids: [u64; 16],
    routes: [u64; REPEATERS + 1],
    /// By writer; those of records, and of content, are counted.
    written: [Written; 4],
    /// By writer, layer 3 octets that were written, each compared by the record's own; and those of inputs that are canonical.
    layer_3: [Octets; OCTET_WRITERS],
    canonical_layer_3: Octets,
    /// By writer, reserved bits that were written, each compared by the record's own; and those of inputs that are canonical.
    reserved: [Settings; OCTET_WRITERS],
    canonical_reserved: Settings,
    /// By the address whose number over 3 alone makes 22, records that were refused with too little room and with enough.
    over: [[u64; 2]; ADDRESSES],
    /// Records with such a number, refused by 21, which comes first, and by 22 where 23 and where 25 would follow.
    over_beside: [u64; 3],
    /// By the place of the route, such a number where the place is not in use and the record is written.
    over_unused: [u64; REPEATERS],
    /// Addresses that were printed, by their reserved bits, and those that were refused for them alone.
    printed: [u64; ONES as usize + 2],
    /// Of a frame and of content alone, octets outside the class, refused by 25 with too little room and with enough.
    outside: [[Octets; 2]; 2],
    /// By kind, I and UI, records with such an octet that 21 and 22 refuse, which come first.
    outside_before: [[u64; 2]; 2],
    /// Each class with the rooms that each writer was lent in it.
    classes: Vec<(String, [Rooms; WRITERS.len()])>,
    /// By place, a first nonzero octet 01; by place and bit, an octet with one bit among nulls, which alone tell 10 from 1; and the first odd
    /// octet, without nulls, and behind nulls by its place after them. Each apart for a place in a whole eight and one in the rest.
    first_ones: [[u64; 2]; SEARCHED],
    among_nulls: [[[u64; 8]; 2]; SEARCHED],
    ends: [[[u64; 2]; SEARCHED]; 2],
    /// By place modulo 8, an even first nonzero octet and the first odd octet after it.
    fields: [[u64; 8]; 8],
    listed: [u64; LISTED.len()],
    wide: [u64; 2],
    hops_used: [u64; REPEATERS + 1],
    /// A route count to 8, and one over it.
    hop_counts: [u64; 2],
    /// Pairs that the Rust can't hold, and those that it can; with other reserved bits, and the same; other stations, and the same.
    stations: [[[u64; 2]; 2]; 2],
    /// Inputs that each of their repeaters relayed.
    pub relayed_routes: u64,
    relay_numbers: [u64; TABLE],
    /// By the due place and its reserved bits, frames that were relayed.
    due_places: [[u64; ONES as usize + 1]; REPEATERS],
    /// By each of `ROUTE_NUMBERS`, the reserved bits of the frames.
    relay_reserved: [Settings; ROUTE_NUMBERS.len()],
    /// By the due place, 43 for who stands there, at a marked place after it, and elsewhere.
    broken: [[u64; 3]; REPEATERS - 1],
    /// By the length of the callsign that relayed a frame.
    callsigns: [u64; 7],
    /// Whether a relayed frame had octets left over in its address field.
    left_over: [u64; 2],
    /// 10 to a station for which what stands behind the nulls would be passed on, refused by its route, refused by decoding.
    relay_nulls: [u64; 3],
    /// 22 for a callsign that is too long, an octet of 128 or more, an SSID over 15.
    not_own: [u64; 3],
    /// By whether the callsign is another, 42 for a station with the same SSID and with another.
    others: [[u64; 2]; 2],
    packet_numbers: [u64; TABLE],
    packet_write_numbers: [u64; TABLE],
    packets: Packets,
    pub streams: Streams,
    pub pairs: Pairs,
    pub old_captures: OldCaptures,
}

fn count(table: &mut [u64], at: usize) {
    if let Some(cell) = table.get_mut(at) {
        *cell += 1;
    }
}

/// No room, less than so much, or more.
fn refused_case(room: usize, length: usize) -> usize {
    if room == 0 { 0 } else { 1 + usize::from(room > length) }
}

/// The case of a kind that has a PID.
fn pid_kind(record: &Flat) -> usize {
    usize::from(record[KIND] == UI)
}

fn count_octet(table: &mut Octets, record: &Flat) {
    table[pid_kind(record)][usize::from(record[PID_OCTET])] += 1;
}

fn count_settings(table: &mut Settings, reserved: impl Iterator<Item = u8>) {
    table.iter_mut().zip(reserved).for_each(|(cells, reserved)| cells[usize::from(reserved)] += 1);
}

/// Whether a sequence number that the kind has is 8 or more. A record as the port lays it out has 0 where the kind lacks it.
fn is_large(record: &Flat) -> bool {
    record[RECEIVE] >= 8 || record[SEND] >= 8
}

fn count_room(table: &mut [Rooms], at: u8, room: Room) {
    if let Some(rooms) = table.get_mut(usize::from(at)) {
        rooms[room as usize] += 1;
    }
}

impl Written {
    fn count(&mut self, record: &Flat, room: Room) {
        count_room(&mut self.kinds, record[KIND], room);
        count_room(&mut self.marks, record[MARK], room);
        count_room(&mut self.routes, record[COUNT], room);
        if has_pid(record) {
            count_room(&mut self.pids, record[PID], room);
        }
        if is_large(record) {
            count_room(&mut self.large, record[KIND], room);
        }
    }
}

impl Seen {
    pub fn new() -> Seen {
        Seen {
            decodes: 0,
            writes: 0,
            spellings: Spellings::default(),
            reasons: Reasons::default(),
            parts: Parts::default(),
            links: Links::default(),
            decode_numbers: [0; TABLE],
            write_numbers: [0; TABLE],
            text_numbers: [0; TABLE],
            print_numbers: [0; TABLE],
            content_numbers: [0; TABLE],
            beside_numbers: [0; TABLE],
            refused_rooms: [[0; 3]; BY_NUMBER],
            read_kinds: [0; KINDS.len()],
            added: Default::default(),
            marks: [0; 3],
            pids: [0; 16],
            routes: [0; REPEATERS + 1],
            written: Default::default(),
            layer_3: [[[0; 256]; 2]; OCTET_WRITERS],
            canonical_layer_3: [[0; 256]; 2],
            reserved: Default::default(),
            canonical_reserved: Default::default(),
            over: Default::default(),
            over_beside: [0; 3],
            over_unused: [0; REPEATERS],
            printed: Default::default(),
            outside: [[[[0; 256]; 2]; 2]; 2],
            outside_before: [[0; 2]; 2],
            classes: Vec::new(),
            first_ones: [[0; 2]; SEARCHED],
            among_nulls: [[[0; 8]; 2]; SEARCHED],
            ends: [[[0; 2]; SEARCHED]; 2],
            fields: [[0; 8]; 8],
            listed: [0; LISTED.len()],
            wide: [0; 2],
            hops_used: [0; REPEATERS + 1],
            hop_counts: [0; 2],
            stations: Default::default(),
            relayed_routes: 0,
            relay_numbers: [0; TABLE],
            due_places: Default::default(),
            relay_reserved: Default::default(),
            broken: [[0; 3]; REPEATERS - 1],
            callsigns: [0; 7],
            left_over: [0; 2],
            relay_nulls: [0; 3],
            not_own: [0; 3],
            others: [[0; 2]; 2],
            packet_numbers: [0; TABLE],
            packet_write_numbers: [0; TABLE],
            packets: Packets::default(),
            streams: Streams::default(),
            pairs: Pairs::default(),
            old_captures: OldCaptures::default(),
        }
    }

    /// An input with a kind that the Rust does not know, where that is looked at.
    pub fn added(&mut self, met: Met, input: &[u8]) {
        if let (Some(added), Some((at, control))) = (domain::added_in(input), domain::control_of(input)) {
            self.count_added(met, added.kind, domain::poll_of(control), input.len() > at + 1);
        }
    }

    /// A record of such a kind, and its info.
    pub fn added_record(&mut self, met: Met, record: &Flat, info: &[u8]) {
        self.count_added(met, record[KIND], record[POLL] != 0, !info.is_empty());
    }

    fn count_added(&mut self, met: Met, kind: u8, poll: bool, something: bool) {
        if let Some(case) = ADDED.iter().position(|added| added.kind == kind) {
            self.added[met as usize][case][usize::from(poll)][usize::from(something)] += 1;
            // What is refused all the same, whatever the kind, is another entry's.
            if !matches!(met, Met::Nine | Met::Ten | Met::RelayTen | Met::Needless | Met::NeedlessContent) {
                self.listed(Listed::B9);
            }
        }
    }

    /// An accepted input that owes this reason.
    pub fn frame(&mut self, input: &[u8], record: &Flat, canonical: bool, reason: Reason) {
        self.added(Met::Decoder, input);
        self.added(if canonical { Met::Canonical } else { Met::NotCanonical }, input);
        self.decode_numbers[0] += 1;
        self.spellings.count(canonical, reason);
        self.reasons.accepted(input, record, reason);
        count(&mut self.read_kinds, record[KIND].into());
        count(&mut self.marks, record[MARK].into());
        count(&mut self.routes, record[COUNT].into());
        if has_pid(record) {
            count(&mut self.pids, record[PID].into());
        }
        if canonical && is_layer_3(record) {
            count_octet(&mut self.canonical_layer_3, record);
            self.own_octet(record);
        }
        if canonical {
            count_settings(&mut self.canonical_reserved, reserved(record));
            self.own_reserved(record);
        }
    }

    pub fn refusal(&mut self, input: &[u8], number: u32) {
        count(&mut self.decode_numbers, number as usize);
        self.reasons.refused(input, number);
        match number {
            9 => self.added(Met::Nine, input),
            10 => self.added(Met::Ten, input),
            _ => {}
        }
    }

    /// Where a search for the first nonzero octet of the input and one for the first odd octet from there on come to their ends.
    pub fn searched(&mut self, input: &[u8]) {
        let rest = |place: usize, length: usize| usize::from(place >= length / 8 * 8);
        let nulls = domain::nulls(input);
        if let ([one, others @ ..], Some(cells)) = (&input[nulls..], self.among_nulls.get_mut(nulls)) {
            if one.is_power_of_two() && others.iter().all(|&octet| octet == 0) {
                cells[rest(nulls, input.len())][one.trailing_zeros() as usize] += 1;
            }
        }
        let (start, end) = match domain::field(input) {
            Some(field) => field,
            None => return,
        };
        if let Some(cell) = self.ends[usize::from(start > 0)].get_mut(end - start) {
            cell[rest(end - start, input.len() - start)] += 1;
        }
        if start < end {
            self.fields[start % 8][end % 8] += 1;
        } else if let (1, Some(cell)) = (input[start], self.first_ones.get_mut(start)) {
            cell[rest(start, input.len())] += 1;
        }
    }

    /// A class starts.
    pub fn class(&mut self, name: &str) {
        self.classes.push((name.to_string(), Default::default()));
    }

    /// Something was written, or did not fit, in a room of this kind.
    pub fn room(&mut self, writer: Writer, room: Room) {
        if let Some((_, writers)) = self.classes.last_mut() {
            writers[writer as usize][room as usize] += 1;
        }
    }

    /// The record that it was, and its info; fields that its kind lacks are 0.
    pub fn written(&mut self, writer: Writer, record: &Flat, info: &[u8], room: Room) {
        self.written[writer as usize].count(record, room);
        self.own(writer, record, info, room);
    }

    /// What was compared by the record's own, where there is room for it: the octet of a layer 3 identifier, and the reserved bits, which
    /// content alone has not; and the control octet of a kind that the Rust does not know.
    pub fn own(&mut self, writer: Writer, record: &Flat, info: &[u8], room: Room) {
        if !room.is_enough() {
            return;
        }
        if let Some(&met) = [Met::Reencode, Met::Read, Met::MadeUp, Met::ContentWritten, Met::Beside].get(writer as usize) {
            self.added_record(met, record, info);
        }
        if is_layer_3(record) {
            count_octet(&mut self.layer_3[writer as usize], record);
            self.own_octet(record);
        }
        if !matches!(writer, Writer::Content) {
            count_settings(&mut self.reserved[writer as usize], reserved(record));
            self.own_reserved(record);
            self.unused(record);
        }
    }

    /// An answer was compared by the record's own reserved bits, which may be those that the Rust writes.
    fn own_reserved(&mut self, record: &Flat) {
        if reserved(record).any(|reserved| reserved != ONES) {
            self.listed(Listed::B7);
        }
    }

    fn unused(&mut self, record: &Flat) {
        for place in usize::from(record[COUNT])..REPEATERS {
            self.over_unused[place] += u64::from(domain::is_over(&repeater(record, place)));
        }
    }

    /// An answer was compared by the record's own layer 3 octet, which may be the one that the Rust writes.
    fn own_octet(&mut self, record: &Flat) {
        if record[PID_OCTET] != RUST_LAYER_3 {
            self.listed(Listed::B6);
        }
    }

    /// A refused input of this length was to be re-encoded.
    pub fn refused_room(&mut self, number: u32, room: usize, length: usize) {
        if let Some(rooms) = self.refused_rooms.get_mut(number as usize) {
            rooms[refused_case(room, length)] += 1;
        }
    }

    /// A refused KISS packet of this length was to be read.
    pub fn packet_refused_room(&mut self, number: u32, room: usize, length: usize) {
        self.packets.refused_rooms[number as usize - 51][refused_case(room, length)] += 1;
    }

    /// Data of this length was to be written on a port over 11.
    pub fn packet_write_refused_room(&mut self, room: usize, length: usize) {
        self.packets.write_refused_rooms[refused_case(room, length)] += 1;
    }

    pub fn beside(&mut self, number: u32) {
        count(&mut self.beside_numbers, number as usize);
    }

    /// A record was to be written with this info that is refused by this number, whether or not the room is enough.
    pub fn write_refusal(&mut self, number: u32, record: &Flat, info: &[u8], enough: bool) {
        count(&mut self.write_numbers, number as usize);
        let addresses = in_use(record);
        let refused: Vec<usize> = (0..addresses.len()).filter(|&i| !domain::encodable(&addresses[i])).collect();
        if let (21 | 22, [one]) = (number, &refused[..]) {
            if domain::is_held(&addresses[*one]) {
                self.over(number, *one, record, info, enough);
            }
        }
        match number {
            23 => self.added_record(Met::Needless, record, info),
            25 => count_octet(&mut self.outside[0][usize::from(enough)], record),
            21 | 22 if domain::is_outside(record) => self.outside_before[pid_kind(record)][number as usize - 21] += 1,
            _ => {}
        }
    }

    /// The only address that can't be written is this one, and for its reserved bits alone.
    fn over(&mut self, number: u32, address: usize, record: &Flat, info: &[u8], enough: bool) {
        if number == 21 {
            self.over_beside[0] += 1;
            return;
        }
        self.over[address][usize::from(enough)] += 1;
        self.over_beside[1] += u64::from(domain::has_needless(record, info));
        self.over_beside[2] += u64::from(domain::is_outside(record));
    }

    /// The same of content alone.
    pub fn content_refusal(&mut self, number: u32, record: &Flat, info: &[u8], enough: bool) {
        self.content(number);
        match number {
            23 => self.added_record(Met::NeedlessContent, record, info),
            25 => count_octet(&mut self.outside[1][usize::from(enough)], record),
            _ => {}
        }
    }

    pub fn text(&mut self, number: u32) {
        count(&mut self.text_numbers, number as usize);
    }

    pub fn print(&mut self, number: u32, address: &FlatAddress) {
        count(&mut self.print_numbers, number as usize);
        if domain::is_held(address) {
            self.printed[usize::from(address[RESERVED].min(ONES + 1))] += 1;
        }
    }

    pub fn content(&mut self, number: u32) {
        count(&mut self.content_numbers, number as usize);
    }

    pub fn hops(&mut self, record: &Flat, used: usize) {
        count(&mut self.hops_used, used);
        self.hop_counts[usize::from(usize::from(record[COUNT]) > REPEATERS)] += 1;
    }

    /// Two stations, whether the Rust can hold both, and whether they are the same.
    pub fn stations(&mut self, pair: &[FlatAddress; 2], held: bool, same: bool) {
        let reserved = pair[0][RESERVED] == pair[1][RESERVED];
        self.stations[usize::from(held)][usize::from(reserved)][usize::from(same)] += 1;
    }

    /// A relay, which owes this due place or this number; `behind` is what would be owed without any nulls before the frame.
    pub fn relay(
        &mut self,
        own: &Own,
        input: &[u8],
        read: &Result<Ax25Frame, u32>,
        owed: Result<usize, u32>,
        behind: Result<usize, u32>,
    ) {
        let number = owed.err().unwrap_or(0);
        count(&mut self.relay_numbers, number as usize);
        match number {
            0 => self.added(Met::Relayed, input),
            10 => self.added(Met::RelayTen, input),
            41 => self.added(Met::UsedUp, input),
            42 => self.added(Met::AnotherStation, input),
            43 => self.added(Met::BrokenMarks, input),
            _ => {}
        }
        if let Some(case) = ROUTE_NUMBERS.iter().position(|&by_route| by_route == number) {
            count_settings(&mut self.relay_reserved[case], domain::reserved_of(input));
        }
        match (owed, read) {
            (Ok(due), Ok(_)) => {
                let reserved = domain::reserved_of(input).nth(2 + due).expect("a due place");
                self.due_places[due][usize::from(reserved)] += 1;
                count(&mut self.callsigns, own.callsign.len());
                let (start, end) = domain::field(input).unwrap_or((0, 0));
                self.left_over[usize::from((end - start + 1) % 7 > 0)] += 1;
            }
            (Err(10), _) => {
                let case = match behind {
                    Ok(_) => 0,
                    Err(number) if ROUTE_NUMBERS.contains(&number) => 1,
                    Err(_) => 2,
                };
                self.relay_nulls[case] += 1;
            }
            (Err(22), _) => {
                let causes = [own.callsign.len() > 6, domain::is_wide(&own.callsign), own.ssid > 15];
                self.not_own.iter_mut().zip(causes).for_each(|(cell, cause)| *cell += u64::from(cause));
            }
            (Err(43), Ok(frame)) => {
                let record = of_frame(frame);
                let [set, _, due] = domain::hops(&record);
                let own = domain::own_address(&own.callsign, own.ssid);
                let is_ours = |place: usize| Some(repeater(&record, place)) == own;
                let marked = (due..REPEATERS).any(|place| set >> place & 1 == 1 && is_ours(place));
                self.broken[due][if is_ours(due) { 0 } else if marked { 1 } else { 2 }] += 1;
            }
            (Err(42), Ok(frame)) => {
                let record = of_frame(frame);
                let due = repeater(&record, domain::hops(&record)[2]);
                let callsign = domain::own_address(&own.callsign, due[SSID]) != Some(due);
                self.others[usize::from(callsign)][usize::from(own.ssid != due[SSID])] += 1;
            }
            _ => {}
        }
    }

    /// How often a relay was tried, and how often the frame was passed on.
    pub fn relay_counts(&self) -> (u64, u64) {
        (self.relay_numbers.iter().sum(), self.relay_numbers[0])
    }

    /// A KISS packet, and how it is to be read.
    pub fn packet(&mut self, packet: &[u8], owed: &kiss::Read) {
        match owed {
            Ok((port, data)) => self.packets.read(*port, data),
            Err(number) => self.packets.refused(packet, *number),
        }
        count(&mut self.packet_numbers, owed.as_ref().err().copied().unwrap_or(0) as usize);
    }

    /// A port and data, and what is to be written of them.
    pub fn written_packet(&mut self, port: u8, owed: &Result<Vec<u8>, u32>) {
        count(&mut self.packets.ports[1], port.into());
        count(&mut self.packet_write_numbers, owed.as_ref().err().copied().unwrap_or(0) as usize);
    }

    /// A KISS stream, from this state on, and what is to come of it.
    pub fn stream(&mut self, start: &State, stretch: &Stretch, owed: &kiss::Stream) {
        self.streams.stream(start, stretch, owed);
    }

    /// A piece of a stream is used up, and there is more or not.
    pub fn piece(&mut self, state: &State, more: bool) {
        if more {
            count(&mut self.streams.phases, state.phase.into());
        }
    }

    /// How often each number of reading KISS packets was met.
    pub fn packet_counts(&self) -> Vec<(u32, u64)> {
        PACKET_NUMBERS.iter().map(|&number| (number, self.packet_numbers[number as usize])).collect()
    }

    pub fn listed(&mut self, which: Listed) {
        self.listed[which as usize] += 1;
    }

    /// Text outside ASCII that the Rust accepted or refused.
    pub fn wide(&mut self, accepted: bool) {
        self.wide[usize::from(accepted)] += 1;
    }

    /// How often each listed difference was met.
    pub fn listed_counts(&self) -> Vec<(String, &'static str, u64)> {
        LISTED.iter().map(|&(which, what)| (format!("{:?}", which), what, self.listed[which as usize])).collect()
    }

    /// How often each decode number was met.
    pub fn number_counts(&self) -> Vec<(u32, u64)> {
        DECODE_NUMBERS.iter().map(|&number| (number, self.decode_numbers[number as usize])).collect()
    }

    pub fn kind_counts(&self) -> Vec<(&'static str, u64)> {
        KINDS.iter().copied().zip(self.read_kinds).collect()
    }

    /// How often each kind of room was lent to a writer.
    pub fn room_counts(&self) -> Vec<(&'static str, u64)> {
        let of = |room: Room| self.classes.iter().flat_map(|(_, writers)| writers).map(|rooms| rooms[room as usize]).sum();
        ROOMS.iter().map(|&(room, name)| (name, of(room))).collect()
    }

    /// How often what is owed no more was owed, by what gave it.
    pub fn stray(&self) -> Vec<String> {
        let old = self.old_captures.numbers.iter().map(|numbers| numbers[NEVER as usize]).sum();
        let of = |table: &[u64; TABLE]| table[NEVER as usize];
        let counts = [
            ("decoding", of(&self.decode_numbers)),
            ("old captures", old),
            ("content alone", of(&self.content_numbers)),
            ("writing side by side", of(&self.beside_numbers)),
            ("relay", of(&self.relay_numbers)),
            ("one call over many parts", self.parts.numbers[NEVER as usize]),
            ("a link", self.links.numbers[LINK_NUMBERS.len()]),
        ];
        counts.iter().filter(|(_, count)| *count > 0).map(|(what, count)| format!("{}, number {}: {} times", what, NEVER, count)).collect()
    }

    /// The cases that were never met.
    pub fn missing(&self) -> Vec<String> {
        let mut missing = Missing(Vec::new());
        missing.numbers("decode number", &DECODE_NUMBERS, &self.decode_numbers);
        missing.numbers("write number", &WRITE_NUMBERS, &self.write_numbers);
        missing.numbers("text number", &TEXT_NUMBERS, &self.text_numbers);
        missing.numbers("print number", &PRINT_NUMBERS, &self.print_numbers);
        missing.numbers("content alone, number", &CONTENT_NUMBERS, &self.content_numbers);
        missing.numbers("side by side, number", &BESIDE_NUMBERS, &self.beside_numbers);
        // `UnknownContent`, the last kind, is never read.
        missing.cases("kind read, case", &self.read_kinds[..usize::from(UNKNOWN_CONTENT)]);
        missing.cases("mark read, case", &self.marks);
        missing.cases("PID read, case", &self.pids);
        missing.cases("repeaters read,", &self.routes);
        missing.cases("accepted by reason, case", &self.spellings.reasons);
        self.reasons.missing(&mut missing);
        self.parts.missing(&mut missing);
        if self.parts.inputs != self.decodes {
            missing.0.push(format!("one call over many parts, {} of {} decoded inputs", self.decodes.abs_diff(self.parts.inputs), self.decodes));
        }
        self.links.missing(&mut missing);
        missing.cases("listed difference, case", &self.listed);
        missing.cases("text outside ASCII that the Rust refuses or accepts, case", &self.wide);
        missing.cases("hops used,", &self.hops_used);
        missing.cases("hops of a count to 8 and over it, case", &self.hop_counts);
        for (held, stations) in ["can't", "can"].iter().zip(&self.stations) {
            for (bits, stations) in ["other", "the same"].iter().zip(stations) {
                missing.cases(&format!("stations that the Rust {} hold, with {} reserved bits, other or same: case", held, bits), stations);
            }
        }
        self.missing_relays(&mut missing);
        missing.numbers("KISS packet read, number", &PACKET_NUMBERS, &self.packet_numbers);
        missing.numbers("KISS packet written, number", &PACKET_WRITE_NUMBERS, &self.packet_write_numbers);
        self.packets.missing(&mut missing);
        self.streams.missing(&mut missing);
        self.pairs.missing(&mut missing);
        self.old_captures.missing(&mut missing);
        for &number in &DECODE_NUMBERS[1..] {
            let rooms = &self.refused_rooms[number as usize];
            missing.cases(&format!("re-encoding refused by {} with no room, less than the input, more: case", number), rooms);
        }
        for place in 0..SEARCHED {
            // The last place of an eight is never in the rest.
            let parts = if place % 8 == 7 { 1 } else { 2 };
            missing.cases(&format!("first nonzero octet 01 at {}, in an eight or the rest: case", place), &self.first_ones[place][..parts]);
            for (part, bits) in ["in an eight", "in the rest"].iter().zip(&self.among_nulls[place][..parts]) {
                missing.cases(&format!("one bit among nulls at {}, {}: bit", place, part), bits);
            }
            for (nulls, ends) in ["", ", counted behind nulls"].iter().zip(&self.ends) {
                missing.cases(&format!("first odd octet at {}{}, in an eight or the rest: case", place, nulls), &ends[place][..parts]);
            }
        }
        for start in 0..8 {
            missing.cases(&format!("start even at {} modulo 8, end modulo 8 at", start), &self.fields[start]);
        }
        self.missing_added(&mut missing);
        self.missing_writes(&mut missing);
        self.missing_octets(&mut missing);
        self.missing_reserved(&mut missing);
        missing.0
    }

    /// No kind that the Rust does not know lacks an entry, P/F clear or set, or nothing or something behind its control octet.
    fn missing_added(&self, missing: &mut Missing) {
        for (&(_, what, behind), kinds) in METS.iter().zip(&self.added) {
            for (added, polls) in ADDED.iter().zip(kinds) {
                for (poll, cells) in ["clear", "set"].iter().zip(polls) {
                    for (something, (name, &cell)) in [(false, ("nothing", &cells[0])), (true, ("something", &cells[1]))] {
                        if cell == 0 && behind.is_needed(added.kind, something) {
                            let kind = KINDS[usize::from(added.kind)];
                            missing.0.push(format!("{}, {} with P/F {} and {} behind its control octet", what, kind, poll, name));
                        }
                    }
                }
            }
        }
    }

    fn missing_relays(&self, missing: &mut Missing) {
        missing.numbers("relay number", &RELAY_NUMBERS, &self.relay_numbers);
        for (place, reserved) in self.due_places.iter().enumerate() {
            missing.cases(&format!("relay at place {} with reserved bits", place), reserved);
        }
        for (number, settings) in ROUTE_NUMBERS.iter().zip(&self.relay_reserved) {
            missing.settings(&format!("relay with number {}", number), settings);
        }
        for (place, whose) in self.broken.iter().enumerate() {
            missing.cases(&format!("relay refused by 43 where place {} is due, to it, to a marked one after it, to another: case", place), whose);
        }
        missing.cases("relay by a callsign of length", &self.callsigns);
        missing.cases("relay with none or some octets left over: case", &self.left_over);
        missing.cases("relay refused by 10 where it would be passed on, refused by its route, refused by decoding: case", &self.relay_nulls);
        missing.cases("relay refused by 22 for a long callsign, a wide octet, an SSID: case", &self.not_own);
        missing.cases("relay refused by 42 for the SSID alone, case", &self.others[0][1..]);
        missing.cases("relay refused by 42 for the callsign, with the same SSID or another: case", &self.others[1]);
    }

    /// The same of what was written: no case, and no writer of a class, lacks a kind of room.
    fn missing_writes(&self, missing: &mut Missing) {
        for ((writer, who), written) in WRITERS.into_iter().zip(&self.written) {
            let read = matches!(writer, Writer::Reencode | Writer::Read);
            let alone = matches!(writer, Writer::Content);
            for kind in (0..=UNKNOWN_CONTENT).filter(|&kind| !read || kind < UNKNOWN_CONTENT) {
                let (at, name) = (usize::from(kind), KINDS[usize::from(kind)]);
                // No room lacks two octets of content that is one.
                let rooms = if alone && (RR..=UA).contains(&kind) { ROOMS_OF_ONE } else { &ROOMS };
                missing.rooms(&format!("{}, {}", who, name), rooms, written.kinds[at]);
                if !read && [I, RR, RNR, REJ, SREJ, FRMR].contains(&kind) {
                    missing.rooms(&format!("{}, {} with a number of 8 or more", who, name), rooms, written.large[at]);
                }
            }
            missing.rooms_by_case(&format!("{}, PID", who), &written.pids);
            if !alone {
                missing.rooms_by_case(&format!("{}, mark", who), &written.marks);
                missing.rooms_by_case(&format!("{}, repeaters", who), &written.routes);
            }
        }
        for (name, writers) in &self.classes {
            for (writer, who) in WRITERS {
                let rooms = writers[writer as usize];
                if rooms != Rooms::default() {
                    missing.rooms(&format!("{} in the class '{}'", who, name), &ROOMS, rooms);
                }
            }
        }
    }

    /// No octet of the layer 3 class lacks a writer or a canonical input, and none outside it a refusal.
    fn missing_octets(&self, missing: &mut Missing) {
        for ((_, who), written) in WRITERS.iter().zip(&self.layer_3) {
            missing.octets(who, written, domain::is_of_class);
        }
        missing.octets("canonical", &self.canonical_layer_3, domain::is_of_class);
        for (what, refused) in ["a frame", "content alone"].iter().zip(&self.outside) {
            for (room, octets) in ["too little", "enough"].iter().zip(refused) {
                missing.octets(&format!("{} refused by 25 with {} room", what, room), octets, |octet| !domain::is_of_class(octet));
            }
        }
        missing.cases("a frame of I with a layer 3 octet outside the class, refused by 21, 22: case", &self.outside_before[0]);
        missing.cases("a frame of UI with a layer 3 octet outside the class, refused by 21, 22: case", &self.outside_before[1]);
    }

    /// No address lacks a setting of its reserved bits that was written or canonical, or a number over 3, in use and not.
    fn missing_reserved(&self, missing: &mut Missing) {
        for ((writer, who), settings) in WRITERS.iter().zip(&self.reserved) {
            if !matches!(writer, Writer::Content) {
                missing.settings(who, settings);
            }
        }
        missing.settings("canonical", &self.canonical_reserved);
        for (name, rooms) in address_names().zip(&self.over) {
            missing.cases(&format!("reserved bits over 3 in {}, refused by 22 with too little room, with enough: case", name), rooms);
        }
        missing.cases("reserved bits over 3, refused by 21, by 22 before 23, by 22 before 25: case", &self.over_beside);
        missing.cases("reserved bits over 3 where they are not in use, at place", &self.over_unused);
        missing.cases("printing with reserved bits (4: over 3)", &self.printed);
    }
}

/// What a frame's addresses are called, in their order.
fn address_names() -> impl Iterator<Item = String> {
    ["the destination".to_string(), "the source".to_string()].into_iter().chain((0..REPEATERS).map(|place| format!("place {}", place)))
}

/// The names of what was never met.
struct Missing(Vec<String>);

impl Missing {
    fn numbers(&mut self, what: &str, numbers: &[u32], table: &[u64]) {
        let absent = numbers.iter().filter(|&&number| table[number as usize] == 0);
        self.0.extend(absent.map(|number| format!("{} {}", what, number)));
    }

    fn cases(&mut self, what: &str, table: &[u64]) {
        let absent = table.iter().enumerate().filter(|(_, &count)| count == 0);
        self.0.extend(absent.map(|(case, _)| format!("{} {}", what, case)));
    }

    fn named<'a>(&mut self, what: &str, names: impl Iterator<Item = &'a &'a str>, table: &[u64]) {
        let absent = names.zip(table).filter(|(_, &count)| count == 0);
        self.0.extend(absent.map(|(name, _)| format!("{}: {}", what, name)));
    }

    fn octets(&mut self, what: &str, table: &Octets, needed: impl Fn(u8) -> bool) {
        for (kind, octets) in ["I", "UI"].iter().zip(table) {
            let absent: Vec<u8> = (0..=255).filter(|&octet| needed(octet) && octets[usize::from(octet)] == 0).collect();
            if !absent.is_empty() {
                self.0.push(format!("{}, {} with the layer 3 octets {}", what, kind, show::hex(&absent)));
            }
        }
    }

    fn settings(&mut self, what: &str, settings: &Settings) {
        for (name, cells) in address_names().zip(settings) {
            self.cases(&format!("{}, {} with reserved bits", what, name), cells);
        }
    }

    fn rooms(&mut self, what: &str, needed: &[(Room, &str)], rooms: Rooms) {
        let absent = needed.iter().filter(|&&(room, _)| rooms[room as usize] == 0);
        self.0.extend(absent.map(|(_, name)| format!("{}: room that is {}", what, name)));
    }

    fn rooms_by_case(&mut self, what: &str, table: &[Rooms]) {
        for (case, &rooms) in table.iter().enumerate() {
            self.rooms(&format!("{} {}", what, case), &ROOMS, rooms);
        }
    }
}
