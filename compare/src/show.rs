//! Answers as lines that people read.

use crate::check::Both;
use crate::flat::*;
use crate::kiss;
use crate::links::VERDICTS;
use crate::oracle;
use crate::port::{CaptureRecord, Fed, Link, State};
use crate::reasons::{Why, REASONS, REFUSED};

pub fn hex(octets: &[u8]) -> String {
    let digits = octets.iter().flat_map(|octet| [octet >> 4, octet & 0x0F]);
    digits.map(|digit| char::from(b"0123456789ABCDEF"[usize::from(digit)])).collect()
}

/// Hex digits in pairs, spaces anywhere between them.
pub fn unhex(text: &str) -> Result<Vec<u8>, String> {
    let (mut octets, mut first) = (Vec::with_capacity(text.len() / 2), None);
    for c in text.chars().filter(|c| !c.is_ascii_whitespace()) {
        let digit = c.to_digit(16).ok_or_else(|| format!("'{}' is no hex digit", c.escape_default()))? as u8;
        match first.take() {
            None => first = Some(digit),
            Some(first) => octets.push(first << 4 | digit),
        }
    }
    match first {
        None => Ok(octets),
        Some(_) => Err(format!("{} hex digits: the last octet has only one", 2 * octets.len() + 1)),
    }
}

/// Characters as they are, those that don't print as \x and two hex digits.
pub fn text(octets: &[u8]) -> String {
    octets.iter().flat_map(|&octet| std::ascii::escape_default(octet)).map(char::from).collect()
}

pub fn address(flat: &[u8]) -> String {
    format!("\"{}\"-{} (reserved {})", text(&flat[..SSID]), flat[SSID], flat[RESERVED])
}

fn route(record: &Flat) -> String {
    let entry = |i: usize| {
        let at = ROUTE + ENTRY * i;
        let mark = if record[at + ADDRESS] != 0 { "*" } else { "" };
        format!("{}{}", address(&record[at..at + ADDRESS]), mark)
    };
    (0..REPEATERS).map(entry).collect::<Vec<_>>().join(" ")
}

/// Every octet of the record, by name.
pub fn record(record: &Flat) -> String {
    let name = |names: &[&'static str], at: usize| names.get(usize::from(record[at])).copied().unwrap_or("another");
    let pid = PIDS.get(usize::from(record[PID])).map_or("Unknown".to_string(), |pid| format!("{:?}", pid));
    format!(
        "destination {} source {} count {} places {} mark {} kind {} pid {} ({:02X}) p/f {} N(R) {} N(S) {} z {} y {} x {} w {} rejected: response {} control {:02X}; record {}",
        address(&record[DESTINATION..SOURCE]),
        address(&record[SOURCE..ROUTE]),
        record[COUNT],
        route(record),
        name(&MARKS, MARK),
        name(&KINDS, KIND),
        pid,
        record[PID_OCTET],
        record[POLL],
        record[RECEIVE],
        record[SEND],
        record[Z],
        record[Y],
        record[X],
        record[W],
        record[REJECTED_RESPONSE],
        record[REJECTED_CONTROL],
        hex(record)
    )
}

pub fn number(number: u32) -> String {
    format!("{}{}", number, oracle::meaning(number))
}

/// A decode's number and places; its record, if it leaves one, is said behind them.
pub fn decode(number: u32, places: &[usize], record: &str) -> String {
    const NAMES: [&str; 5] = ["start", "end", "length", "info at", "info's length"];
    let places: Vec<String> = NAMES.iter().zip(places).map(|(name, place)| format!("{} {}", name, place)).collect();
    format!("number {} {}; {}", self::number(number), places.join(" "), record)
}

/// Why an input is not canonical, or by which number it is refused and at which place.
pub fn why(why: &Why) -> String {
    let word = match why.answer {
        REFUSED => "refused",
        answer => REASONS.get(answer as usize).map_or("another", |(_, word)| word),
    };
    format!("reason {} ({}) number {} place {}", word, why.answer, number(why.number), why.place)
}

/// A record of `ax25_captures`.
pub fn capture_record(record: &CaptureRecord) -> String {
    let CaptureRecord { start, length, canonical, kind, .. } = record;
    let name = KINDS[..usize::from(UNKNOWN_CONTENT)].get(usize::from(*kind)).unwrap_or(&"none");
    format!("start {} length {} number {} canonical {} kind {} ({})", start, length, number(record.number), canonical, name, kind)
}

/// A record of `ax25_link_offer`.
pub fn link(link: &Link) -> String {
    let [a, b] = &link.stations;
    let counts: Vec<String> = VERDICTS.iter().zip(link.counts).map(|((_, name), count)| format!("{} {}", name, count)).collect();
    format!(
        "a {} b {} state {} expected {:?} moved {:?} {} offered {}",
        address(a),
        address(b),
        link.state,
        link.expected,
        link.moved,
        counts.join(" "),
        link.offered
    )
}

/// The number of such a call and the record that it leaves.
pub fn offered((number, left): &(u32, Link)) -> String {
    format!("number {} {}", self::number(*number), link(left))
}

/// Octets that a call leaves in a lent buffer: a record and an address by name.
pub fn left(octets: &[u8]) -> String {
    match octets.len() {
        0 => "nothing".to_string(),
        ADDRESS => address(octets),
        FLAT => record(octets.try_into().expect("a record's octets")),
        _ => hex(octets),
    }
}

/// What the port says of one of two inputs.
pub fn beside(input: &Both) -> String {
    let canonical = if input.canonical { "canonical" } else { "not canonical" };
    match &input.port {
        Ok(shown) => format!("{}, {} info {}", canonical, record(&shown.record), hex(&shown.info)),
        Err(number) => format!("{}, refused by {}", canonical, number),
    }
}

/// Bits by the place of their octet and their own.
pub fn bits(bits: &[(usize, u8)]) -> String {
    let octet = |&(at, set): &(usize, u8)| (0..8).filter(move |bit| set >> bit & 1 == 1).map(move |bit| format!("{}.{}", at, bit));
    let all: Vec<String> = bits.iter().flat_map(octet).collect();
    if all.is_empty() { "(none)".to_string() } else { all.join(" ") }
}

/// A written output: its number, length and octets.
pub fn written(number: u32, length: usize, octets: &[u8]) -> String {
    format!("number {} length {} octets {}", self::number(number), length, hex(octets))
}

/// A KISS packet as it is read.
pub fn packet(read: &kiss::Read) -> String {
    match read {
        Ok((port, data)) => format!("number 0 port {} length {} data {}", port, data.len(), hex(data)),
        Err(number) => format!("number {}", number),
    }
}

/// How far a KISS stream has been read.
pub fn state(state: &State) -> String {
    let length = if usize::from(state.length) > state.data.len() { format!(" (length {})", state.length) } else { String::new() };
    state_of(state.phase, state.port, state.held(), state.dropped) + &length
}

pub fn state_of(phase: u8, port: u8, data: &[u8], dropped: u16) -> String {
    format!("phase {} port {} length {} dropped {} data {}", phase, port, data.len(), dropped, hex(data))
}

/// A call on what is left of a piece of a KISS stream, if there is one.
pub fn call(fed: Option<&Fed>) -> String {
    let call = |fed: &Fed| {
        let packet = &fed.packet;
        format!("taken {} ready {} port {} length {} data {}", fed.taken, packet.ready, packet.port, packet.length, hex(&fed.data))
    };
    fed.map_or("no call".to_string(), call)
}
