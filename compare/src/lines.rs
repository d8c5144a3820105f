//! The lines of the list for `replay`: each an input with the answer that is owed to it. On document 01's domain of equality that is
//! the Rust's; elsewhere it is worked out from the rules of documents 01 and 02, and the port is not asked.

use crate::check;
use crate::domain;
use crate::flat::{self, Flat, FlatAddress, ADDRESS, COUNT, FLAT, GROUP, KIND, ROUTE};
use crate::inputs;
use crate::oracle::{self, Decode};
use crate::reasons::{Reason, Why};
use crate::relays::Own;
use crate::show;
use ax25::frame::Ax25Frame;

pub const HEADING: &str = "\
# Inputs and the answers that are owed to them, by the Rust crate ax25 0.4.0, unchanged. Made by 'compare/build' and
# 'target/compare/compare replay-list'; never edited by hand. Where a heading says 'document 01', the Rust has no such answer, and
# the lines under it were worked out from that paper's rules. So is what is left in lent octets, everywhere. Where it says
# 'document 02', they were worked out from what the Rust decodes and that paper's rules (M-100, M-102, M-105, M-106, M-108 to M-110).
# One octet is nowhere the Rust's: for every PID of the layer 3 class (bits 5 and 4 are 01 or 10) the Rust writes 10 hex, and its
# identifier holds no octet. By document 02 (M-105) the octet that was read, or that stands in the record, is the one that is written,
# on every line, and canonical is 1 where what is so written is the input. Nor are two bits of every group, the reserved ones (6 and 5
# of its seventh octet): the Rust writes ones, and its address holds none. By document 02 (M-106) those that were read, or that stand
# in the record, are written, on every line, and canonical goes by them too; text, from_parts and the default frame have 3. The reason,
# with its number and place, is nowhere the Rust's: by document 02 (M-110) it is told from the octets, on every line of D.
# Nor is 10: the Rust skips leading nulls and reads what follows. By document 02 (M-108) such an input is refused, on every line of D and
# of R, unless it is all nulls. An old capture, on lines of O, is what the Rust reads, or 9 as on other lines; beside every input of D
# that starts with a null stands the same of O.
# Nor are SREJ, SABME, XID and TEST, which the Rust refuses by 6 and 7. By document 02 (M-109) they are read and written, on every line:
# addresses and marks as the Rust has them where RR stands in their place, and the control octet and info by that paper. All lines are of
# the short mode, in which sequence numbers are modulo 8: the Rust has no other.
# Words are separated by one space; octets are hex digits, and - is none of them; numbers are decimal. A record is 102 octets:
# destination and source of 8 each (six characters, the SSID, and the reserved bits as a number, bit 6 the higher); eight places of 9
# (an address and its mark); the route count; the mark (0 Command, 1 Response, 2 absent); then the content's 12: kind (0 I, 1 RR,
# 2 RNR, 3 REJ, 4 SREJ, 5 SABM, 6 SABME, 7 DISC, 8 DM, 9 UA, 10 FRMR, 11 UI, 12 XID, 13 TEST, 14 unknown), PID case (0 layer 3, 15
# unknown) and octet (of these two, else 0), P/F, N(R), N(S), Z, Y, X, W, FRMR's response, the rejected control octet.
# Octets that are lent are EE before the call. Behind a number stands what it left there: a dot where it touched none, else all of
# them, and three more after them, which have to stay. A frame to be relayed is lent itself, and stands there untouched too; a dot
# where it is empty.
# D input: number start end length info_start info_length record; by the loader's calls: number canonical, reason number place, number length octets
# O input: number start end length info_start info_length record; by the loader's call: number     an old capture
# K content: number flat_content                   content read alone
# E flat_content info room: number length octets   content written alone, into room for so many octets
# W record info room: number length octets         a frame written
# S address - room: number length text             an address printed
# T text: number address
# P callsign - ssid: number address
# A record: number record                          the frame of a record, as a record again
# H record: number hop_set hops_used due_place
# Q address address: 1 where both are one station, else 0
# U source destination: number record              new_simple_ui_frame
# Z: number record                                 the default frame
# R callsign frame ssid: number frame              a frame relayed by this station
# G address - n: number octets number octets       a group as a value, then written into nine octets: n is four times its place there,
#                                                  twice its end bit, and its mark";

/// A lent octet before the call, and how many of them are shown beyond the room.
const LENT: u8 = 0xEE;
const BEYOND: usize = 3;
/// The octets that are lent to a group.
const GROUP_ROOM: usize = 9;

/// A number, and the octets that are written: none at a refusal.
type Answer = (u32, Vec<u8>);

pub struct List {
    pub lines: usize,
}

impl List {
    pub fn heading(&mut self, text: &str) {
        println!("# {}", text);
    }

    fn line(&mut self, line: String) {
        self.lines += 1;
        println!("{}", line);
    }

    pub fn decode(&mut self, input: &[u8]) {
        let read = oracle::known(input, oracle::read(input));
        let owed = oracle::owed(input, oracle::owed_of_old(input, &read));
        let octets = match (&read, &owed.record) {
            (Ok(frame), Some(record)) => oracle::written(frame, record).octets,
            _ => Vec::new(),
        };
        let number = owed.number;
        let canonical = u8::from(number == 0 && octets == input);
        let why = if number == 0 { Why::accepted(Reason::of(input)) } else { Why::refused(input, number) };
        let why = format!("{} {} {}", why.answer, why.number, why.place);
        let again = format!("{} {} {} {} {}", canonical, why, number, octets.len(), lent(&octets, octets.len()));
        self.line(format!("D {} {} {} {}", hex(input), decoded(&owed), number, again));
        if input.first() == Some(&0) {
            self.old_capture(input);
        }
    }

    /// Not counted: which other lines there are does not hang on how many these are.
    pub fn old_capture(&mut self, input: &[u8]) {
        let owed = oracle::owed_of_old(input, &oracle::known(input, oracle::read(input)));
        println!("O {} {} {}", hex(input), decoded(&owed), owed.number);
    }

    /// Content alone, and what was read of it written again.
    pub fn content(&mut self, content: &[u8]) {
        let input = inputs::with_content(content);
        let read = oracle::known(&input, oracle::read(&input));
        let record = read.as_ref().map(|frame| oracle::record(&input, frame));
        let number = read.as_ref().map_or_else(|refusal| refusal.number, |_| 0);
        let flat = record.as_ref().map_or(&[][..], |record| &record[KIND..]);
        self.line(format!("K {} {} {}", hex(content), number, lent(flat, FLAT - KIND)));
        if let (Ok(frame), Ok(record)) = (&read, &record) {
            let info = flat::info_of(frame).unwrap_or(&[]);
            self.write_content(record, info, frame.to_bytes().len() - inputs::FIELD);
        }
    }

    /// The content of a record alone.
    pub fn write_content(&mut self, record: &Flat, info: &[u8], room: usize) {
        let (number, octets) = written(&check::with_plain_addresses(&record[KIND..]), info);
        let content = octets.get(inputs::FIELD..).unwrap_or(&[]).to_vec();
        self.written(format!("E {} {}", hex(&record[KIND..]), hex(info)), (number, content), room);
    }

    /// Writing into room exactly full, and for a refusal into much.
    pub fn write(&mut self, record: &Flat, info: &[u8]) {
        let (number, octets) = written(record, info);
        self.write_in(record, info, if number == 0 { octets.len() } else { FLAT + info.len() });
    }

    /// Into room one octet short.
    pub fn write_short(&mut self, record: &Flat, info: &[u8]) {
        let needed = written(record, info).1.len();
        self.write_in(record, info, needed - 1);
    }

    /// Into room exactly full, one octet short, none and longer; a refusal into none and much.
    pub fn write_rooms(&mut self, record: &Flat, info: &[u8]) {
        let (number, octets) = written(record, info);
        let needed = octets.len();
        let rooms = if number == 0 { vec![needed, needed - 1, 0, needed + 4] } else { vec![0, 90] };
        rooms.into_iter().for_each(|room| self.write_in(record, info, room));
    }

    pub fn write_in(&mut self, record: &Flat, info: &[u8], room: usize) {
        self.written(format!("W {} {}", hex(record), hex(info)), written(record, info), room);
    }

    /// Printing into room exactly full, and for a refusal into much.
    pub fn print(&mut self, address: &FlatAddress) {
        let (number, text) = printed(address);
        self.print_in(address, if number == 0 { text.len() } else { ADDRESS + 3 });
    }

    pub fn print_in(&mut self, address: &FlatAddress, room: usize) {
        self.written(format!("S {} -", hex(address)), printed(address), room);
    }

    /// 24, and nothing written, where the room is short.
    fn written(&mut self, input: String, answer: Answer, room: usize) {
        let (number, octets) = if room < answer.1.len() { (24, Vec::new()) } else { answer };
        self.line(format!("{} {} {} {} {}", input, room, number, octets.len(), lent(&octets, room)));
    }

    pub fn text(&mut self, text: &[u8]) {
        let (number, address) = read_text(text, oracle::from_str);
        self.line(format!("T {} {} {}", hex(text), number, lent(&address, ADDRESS)));
    }

    pub fn parts(&mut self, callsign: &[u8], ssid: u8) {
        let (number, address) = read_text(callsign, |text| oracle::from_parts(text, ssid));
        self.line(format!("P {} - {} {} {}", hex(callsign), ssid, number, lent(&address, ADDRESS)));
    }

    /// A record that the Rust can hold, or could but for its kind, its reserved bits and the octet of a layer 3 identifier.
    pub fn again(&mut self, record: &Flat) {
        let settled = flat::settled(record, &flat::to_frame(record, &[]));
        self.line(format!("A {} 0 {}", hex(record), lent(&settled, FLAT)));
    }

    pub fn hops(&mut self, record: &Flat) {
        let [set, used, due] = domain::hops(record);
        self.line(format!("H {} 0 {} {} {}", hex(record), set, used, due));
    }

    pub fn same_station(&mut self, one: &FlatAddress, other: &FlatAddress) {
        self.line(format!("Q {} {} {}", hex(one), hex(other), u8::from(domain::same_station(one, other))));
    }

    /// A refusal leaves the frame as it was, and it is shown all the same.
    pub fn relay(&mut self, own: &Own, frame: &[u8]) {
        let owed = check::owed_of_relay(own, &check::decoded(frame));
        let number = owed.err().unwrap_or(0);
        let left = domain::relayed(frame, owed);
        self.line(format!("R {} {} {} {} {}", hex(&own.callsign), hex(frame), own.ssid, number, lent(&left, left.len())));
    }

    /// A refusal leaves zeros as a value, and the lent octets alone.
    pub fn group(&mut self, address: &FlatAddress, mark: bool, end: bool, at: usize) {
        let n = 4 * at + 2 * usize::from(end) + usize::from(mark);
        let (number, octets) = group(address, mark, end);
        let value = if number == 0 { octets.clone() } else { vec![0; GROUP] };
        let (answer, left) = match number {
            0 if GROUP_ROOM < at + GROUP => (24, Vec::new()),
            0 => (0, [vec![LENT; at], octets].concat()),
            refused => (refused, Vec::new()),
        };
        self.line(format!("G {} - {} {} {} {} {}", hex(address), n, number, hex(&value), answer, lent(&left, GROUP_ROOM)));
    }

    pub fn simple_ui(&mut self, source: &FlatAddress, destination: &FlatAddress) {
        let (_, record) = oracle::simple_ui(source, destination, &[]);
        self.line(format!("U {} {} 0 {}", hex(source), hex(destination), lent(&record, FLAT)));
    }

    pub fn default_frame(&mut self) {
        self.line(format!("Z 0 {}", lent(&flat::of_frame(&Ax25Frame::default()), FLAT)));
    }
}

fn hex(octets: &[u8]) -> String {
    if octets.is_empty() { "-".to_string() } else { show::hex(octets) }
}

/// What is shown of octets that were lent, with those beyond the room.
fn lent(written: &[u8], room: usize) -> String {
    let mut buffer = vec![LENT; room + BEYOND];
    buffer[..written.len()].copy_from_slice(written);
    if buffer.iter().all(|&octet| octet == LENT) { ".".to_string() } else { show::hex(&buffer) }
}

/// A decoder's number, its places, and what it leaves of the record.
fn decoded(owed: &Decode) -> String {
    let places = owed.places.map(|place| place.to_string()).join(" ");
    format!("{} {} {}", owed.number, places, lent(owed.left(), FLAT))
}

/// A record written where there is room.
fn written(record: &Flat, info: &[u8]) -> Answer {
    match domain::record_number(record, info) {
        0 => (0, oracle::written(&flat::to_frame(record, info), record).octets),
        refused => (refused, Vec::new()),
    }
}

/// An address printed where there is room.
fn printed(address: &FlatAddress) -> Answer {
    if domain::encodable(address) {
        (0, flat::addresses(&[*address])[0].to_string().into_bytes())
    } else {
        (22, Vec::new())
    }
}

/// The group of an address, which the Rust writes as a frame's first repeater: the last one too where it has the end bit.
fn group(address: &FlatAddress, mark: bool, end: bool) -> Answer {
    if !domain::encodable(address) {
        return (22, Vec::new());
    }
    let mut record = flat::of_frame(&Ax25Frame::default());
    record[ROUTE..ROUTE + ADDRESS].copy_from_slice(address);
    record[ROUTE + ADDRESS] = u8::from(mark);
    record[COUNT] = if end { 1 } else { 2 };
    let octets = oracle::written(&flat::to_frame(&record, &[]), &record).octets;
    (0, octets[inputs::FIELD..inputs::FIELD + GROUP].to_vec())
}

/// The number and the address, which a refusal does not leave.
fn read_text<F>(text: &[u8], ask: F) -> Answer
where
    F: Fn(&str) -> Result<ax25::frame::Address, u32>,
{
    match std::str::from_utf8(text) {
        Ok(text) if text.is_ascii() => ask(text).map_or_else(|number| (number, Vec::new()), |read| (0, flat::of_address(&read).to_vec())),
        _ => (35, Vec::new()),
    }
}
