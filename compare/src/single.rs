//! One input at a time: both sides in full, and then whether they differ.

use crate::check::{self, padded, Checker, Difference};
use crate::domain;
use crate::flat::{self, Flat, ADDRESS, FLAT, KIND, PID_OCTET};
use crate::inputs;
use crate::kiss;
use crate::links;
use crate::oracle;
use crate::pairs::Way;
use crate::parts::{Call, Part};
use crate::port::{CaptureRecord, Entry, Link, Port, FRESH, HOPS, PLACES};
use crate::relays::Own;
use crate::show;
use crate::streams;
use ax25::frame::Address;

/// Prints what differs; whether nothing does.
fn verdict(found: Vec<Difference>) -> bool {
    for difference in &found {
        println!("MISMATCH: {}", difference.what);
        println!("  owed: {}", difference.owed);
        println!("  port: {}", difference.port);
    }
    if found.is_empty() {
        println!("same: the port answers as it owes");
    }
    found.is_empty()
}

/// Runs a check on each word; whether all hold.
pub fn each(words: &[&str], mut check: impl FnMut(&str) -> bool) -> bool {
    words.iter().filter(|word| !check(word)).count() == 0
}

pub fn one(input: &[u8]) -> bool {
    let mut checker = Checker::thorough();
    println!("input: {} octets: {}", input.len(), show::hex(input));
    if domain::repeaters(input) > flat::REPEATERS {
        println!("outside the domain of equality (B1): {} repeaters, the port owes 9", domain::repeaters(input));
    }
    show_nulled(input);
    show_unknown(input);
    show_rust(input);
    show_port(&mut checker, input);
    let mut found = checker.octets(input);
    found.extend(checker.relays(input));
    verdict(found)
}

/// A canonical input and another beside it: what each is, where they differ, and whether that is seen.
pub fn pair(one: &[u8], other: &[u8]) -> bool {
    let mut checker = Checker::thorough();
    let both = [one, other].map(|input| checker.both(input));
    for input in &both {
        println!("input: {} octets: {}", input.octets.len(), show::hex(&input.octets));
        println!("port: {}", show::beside(input));
    }
    let say = |same: bool| if same { "the same frame and info" } else { "not the same frame and info" };
    println!("port: {}; Rust: {}", say(both[0].agrees(&both[1])), say(both[0].agrees_by_rust(&both[1])));
    if one.len() == other.len() {
        let differing = show::bits(&domain::differing(one, other));
        println!("octet and bit where they differ: {}; excepted: {}", differing, show::bits(&domain::excepted(one)));
    }
    let mut found = [one, other].iter().flat_map(|input| checker.octets(input)).collect::<Vec<_>>();
    if both[0].canonical {
        found.extend(checker.pair(Way::Met, &both[0], &both[1]));
    } else {
        println!("the first is not canonical: nothing is owed of the two together");
    }
    verdict(found)
}

fn show_nulled(input: &[u8]) {
    if domain::is_nulled(input) {
        println!("outside the domain of equality (B8): leading nulls, the port owes 10; as an old capture, the answer to what follows them");
    }
}

fn show_unknown(input: &[u8]) {
    if let Some(added) = domain::added_in(input) {
        let kind = flat::KINDS[usize::from(added.kind)];
        println!("outside the domain of equality (B9): {}, which the port knows; the Rust owes {}", kind, added.refusal);
    }
}

fn show_rust(input: &[u8]) {
    match oracle::read(input) {
        Ok(frame) => {
            println!("Rust: {:?}", frame);
            let octets = frame.to_bytes();
            println!("Rust: re-encoded {} octets {}, canonical {}", octets.len(), show::hex(&octets), u8::from(octets == input));
            if frame.route.len() <= flat::REPEATERS {
                let places = oracle::accepted(input, &frame).places;
                println!("Rust: {}", show::decode(0, &places, &show::record(&flat::of_frame(&frame))));
                show_masked(&oracle::record(input, &frame), "input");
            }
        }
        Err(refusal) => println!("Rust: refused {}: {:?}", show::number(refusal.number), refusal),
    }
}

/// Says where bits are not compared by the Rust's, but by those of the input, the record or the content.
fn show_masked(record: &Flat, whose: &str) {
    let reserved: Vec<u8> = flat::reserved(record).collect();
    if reserved.iter().any(|&reserved| reserved != flat::ONES) {
        let own = format!("the {}'s own, {:?}", whose, reserved);
        println!("the reserved bits are compared by {}: the Rust's addresses hold none, and it writes ones (B7)", own);
    }
    if flat::is_layer_3(record) {
        let own = format!("the {}'s own, {:02X}", whose, record[PID_OCTET]);
        println!("the PID octet is compared by {}: the Rust's identifier holds none, and it writes 10 (B6)", own);
    }
}

fn show_port(checker: &mut Checker, input: &[u8]) {
    let port = &mut checker.port;
    for (entry, who) in [(Entry::Decoder, "port"), (Entry::OldCapture, "port, as an old capture")] {
        let number = port.decode(entry, input, FLAT, PLACES);
        println!("{}: {}", who, show::decode(number, port.sizes(), &left(port)));
    }
    println!("port, as an old capture: decode {}", port.number(Entry::OldCapture, input));
    let (number, canonical, length) = (port.number(Entry::Decoder, input), port.canonical(input), port.reencoded_length(input));
    // A length that is out of all reason is not lent.
    let room = length.min(input.len() + FLAT);
    let answer = port.reencode(input, room);
    let octets = show::hex(port.output());
    println!("port: decode {} canonical {} re-encoded length {}; re-encode into {}: {} octets {}", number, canonical, length, room, answer, octets);
    println!("port: {}", show::why(&port.reason(input)));
    show_records(port, input, &[Part { start: 0, length: input.len() }]);
}

fn show_records(port: &mut Port, buffer: &[u8], parts: &[Part]) {
    let record = |part: &Part| CaptureRecord { start: part.start, length: part.length, number: 0, canonical: 0, kind: 0 };
    port.captures(buffer, &parts.iter().map(record).collect::<Vec<_>>());
    port.records().iter().for_each(|record| println!("port: record: {}", show::capture_record(record)));
}

/// How often the same call is made: each time the records hold something else before it.
const FILLS: usize = 16;

/// Parts of a buffer, read in one call.
pub fn buffer(buffer: &[u8], parts: &[Part]) -> bool {
    println!("buffer: {} octets: {}", buffer.len(), show::hex(buffer));
    let mut checker = Checker::thorough();
    show_records(&mut checker.port, buffer, parts);
    let parts = parts.iter().map(|part| (*part, checker.owed_of_part(buffer, part))).collect();
    let call = Call { buffer: buffer.to_vec(), parts };
    let found = (0..FILLS).map(|_| checker.call(&call)).find(|found| !found.is_empty()).unwrap_or_default();
    verdict(found.into_iter().flat_map(|(_, found)| found).collect())
}

/// What the last call left in the output.
fn left(port: &Port) -> String {
    show::left(if port.rest_is_as_it_was(0) { &[] } else { port.output() })
}

fn show_wide(text: &[u8]) {
    if domain::is_wide(text) {
        println!("outside the domain of equality (B2): an octet of 128 or more, the port owes 35");
    }
}

fn show_rust_address(read: Result<Address, u32>) {
    match read {
        Ok(address) => println!("Rust: number 0 {:?}", address),
        Err(number) => println!("Rust: number {}", show::number(number)),
    }
}

pub fn text(text: &[u8]) -> bool {
    println!("text: {} ({})", show::text(text), show::hex(text));
    let mut checker = Checker::thorough();
    match std::str::from_utf8(text) {
        Ok(text) => show_rust_address(oracle::from_str(text)),
        Err(_) => println!("Rust: can't be asked, the octets are no UTF-8"),
    }
    show_wide(text);
    let number = checker.port.from_str(text, ADDRESS);
    println!("port: number {} {}", number, left(&checker.port));
    verdict(checker.text(text))
}

pub fn parts(callsign: &[u8], ssid: u8) -> bool {
    println!("callsign: {} ({}) SSID {}", show::text(callsign), show::hex(callsign), ssid);
    let mut checker = Checker::thorough();
    match std::str::from_utf8(callsign) {
        Ok(callsign) => show_rust_address(oracle::from_parts(callsign, ssid)),
        Err(_) => println!("Rust: can't be asked, the octets are no UTF-8"),
    }
    show_wide(callsign);
    let number = checker.port.from_parts(callsign, ssid, ADDRESS);
    println!("port: number {} {}", number, left(&checker.port));
    verdict(checker.parts(callsign, ssid))
}

pub fn print(address: &[u8]) -> bool {
    let whole = padded::<ADDRESS>(address);
    println!("address: {}", show::address(&whole));
    let mut checker = Checker::thorough();
    if domain::encodable(&whole) {
        println!("Rust: {:?}", flat::addresses(&[whole])[0].to_string());
    } else {
        println!("outside the domain of equality (B3): the port owes 22");
    }
    let (number, length) = checker.port.print(address, 32);
    let text = show::text(&checker.port.output()[..length.min(32)]);
    println!("port: number {} length {} \"{}\"", number, length, text);
    verdict(checker.print(address))
}

pub fn record(record: &[u8], info: &[u8]) -> bool {
    let whole = padded::<FLAT>(record);
    println!("record: {} info {}", show::record(&whole), show::hex(info));
    let mut checker = Checker::thorough();
    show_rust_writes(&whole, info, 0);
    let room = FLAT + info.len();
    let (number, length) = checker.port.encode(record, info, room);
    let octets = show::hex(&checker.port.output()[..length.min(room)]);
    println!("port: number {} length {} octets {}", number, length, octets);
    verdict(checker.record(record, info))
}

/// What the Rust writes of a record, from this octet on.
fn show_rust_writes(record: &Flat, info: &[u8], from: usize) {
    match domain::record_number(record, info) {
        0 => {
            if domain::ADDED.iter().any(|added| added.kind == record[KIND]) {
                println!("outside the domain of equality (B9): the Rust has no such kind, and is given its content as it is to be written");
            }
            println!("Rust: writes {}", show::hex(&flat::to_frame(record, info).to_bytes()[from..]));
            show_masked(record, "record");
        }
        number => println!("outside the domain of equality (B3): the port owes {}", number),
    }
}

pub fn simple_ui(source: &[u8], destination: &[u8], info: &[u8]) -> bool {
    let (from, to) = (padded::<ADDRESS>(source), padded::<ADDRESS>(destination));
    println!("source {} destination {} info {}", show::address(&from), show::address(&to), show::hex(info));
    if !domain::is_held(&from) || !domain::is_held(&to) {
        println!("the Rust holds no such address: nothing to compare");
        return true;
    }
    let (frame, owed) = oracle::simple_ui(&from, &to, info);
    println!("Rust: {:?}", frame);
    show_masked(&owed, "record");
    let mut checker = Checker::thorough();
    let number = checker.port.simple_ui(source, destination, FLAT);
    println!("port: number {} {}", number, show::record(&padded(checker.port.output())));
    verdict(checker.simple_ui(source, destination, info))
}

pub fn content(content: &[u8]) -> bool {
    println!("content: {} octets: {}", content.len(), show::hex(content));
    if content.is_empty() {
        println!("outside the domain of equality (B5): the port owes 4");
    } else {
        let input = inputs::with_content(content);
        show_unknown(&input);
        match oracle::read(&input) {
            Ok(frame) => {
                println!("Rust: {:?}", frame.content);
                show_masked(&oracle::record(&input, &frame), "content");
            }
            Err(refusal) => println!("Rust: refused {}", show::number(refusal.number)),
        }
    }
    let mut checker = Checker::thorough();
    let number = checker.port.content(content, FLAT - flat::KIND);
    println!("port: number {} {}", number, left(&checker.port));
    verdict(checker.content(content))
}

pub fn content_record(content: &[u8], info: &[u8]) -> bool {
    println!("flat content: {} info {}", show::hex(content), show::hex(info));
    show_rust_writes(&check::with_plain_addresses(content), info, inputs::FIELD);
    let mut checker = Checker::thorough();
    let (number, length) = checker.port.encode_content(content, info, info.len() + FLAT);
    println!("port: number {} length {} octets {}", number, length, show::hex(&checker.port.output()[..length.min(info.len() + FLAT)]));
    verdict(checker.content_record(content, info))
}

pub fn hops(record: &[u8]) -> bool {
    println!("record: {}", show::record(&padded(record)));
    let mut checker = Checker::thorough();
    let number = checker.port.hops(record, HOPS);
    println!("port: number {} hop set, hops used, due place {:?}", number, checker.port.sizes());
    verdict(checker.hops(record))
}

pub fn same_station(one: &[u8], other: &[u8]) -> bool {
    println!("{} and {}", show::address(&padded::<ADDRESS>(one)), show::address(&padded::<ADDRESS>(other)));
    let mut checker = Checker::thorough();
    println!("port: {}", checker.port.same_station(one, other));
    verdict(checker.same_station(one, other))
}

pub fn relay(own: &Own, input: &[u8]) -> bool {
    println!("{} relays {} octets: {}", own.words(), input.len(), show::hex(input));
    show_nulled(input);
    show_unknown(input);
    show_rust(input);
    let mut checker = Checker::thorough();
    let number = checker.port.relay(&own.callsign, own.ssid, input);
    println!("port: number {} octets {}", number, show::hex(checker.port.output()));
    verdict(checker.relay(own, input, &check::read_old(input)))
}

pub fn packet(packet: &[u8]) -> bool {
    println!("KISS packet: {} octets: {}", packet.len(), show::hex(packet));
    println!("the laboratory's reader: {}", show::packet(&kiss::read(packet)));
    let mut checker = Checker::thorough();
    let (number, port, length) = checker.port.kiss_read(packet, packet.len());
    let data = &checker.port.output()[..length.min(packet.len())];
    println!("port: number {} port {} length {} data {}", number, port, length, show::hex(data));
    verdict(checker.packet(packet))
}

pub fn written_packet(port: u8, data: &[u8]) -> bool {
    println!("port {} data: {} octets: {}", port, data.len(), show::hex(data));
    match kiss::write(port, data) {
        Ok(packet) => println!("the laboratory's writer: {}", show::written(0, packet.len(), &packet)),
        Err(number) => println!("the laboratory's writer: number {}", number),
    }
    let mut checker = Checker::thorough();
    let room = 2 * data.len() + 3;
    let (number, length) = checker.port.kiss_write(port, data, room);
    println!("port: {}", show::written(number, length, &checker.port.output()[..length.min(room)]));
    verdict(checker.written_packet(port, data))
}

pub fn stream(octets: &[u8], cut: &[usize]) -> bool {
    println!("KISS stream: {} octets: {}", octets.len(), show::hex(octets));
    let owed = kiss::stream(octets);
    for (end, (port, data)) in &owed.packets {
        println!("the laboratory's reader: after {} octets port {} length {} data {}", end, port, data.len(), show::hex(data));
    }
    println!("the laboratory's reader: dropped by {:?}; {}", owed.dropped, show::state_of(owed.phase, owed.port, &owed.data, owed.count(0)));
    let (mut checker, mut state) = (Checker::thorough(), FRESH);
    for piece in streams::pieces(octets.len(), cut) {
        for fed in checker.port.kiss_feed(&mut state, &octets[piece.clone()]) {
            println!("port: octets {} to {}: {}", piece.start, piece.end, show::call(Some(&fed)));
        }
    }
    println!("port: {}", show::state(&state));
    verdict(checker.stream(&FRESH, octets, &[cut.to_vec()]))
}

pub fn link(link: &Link, frame: &[u8]) -> bool {
    println!("link: {}", show::link(link));
    println!("is offered {} octets: {}", frame.len(), show::hex(frame));
    show_nulled(frame);
    show_unknown(frame);
    show_rust(frame);
    let mut checker = Checker::thorough();
    println!("port: {}", show::offered(&checker.port.link_offer(link, frame)));
    let (_, found) = checker.link(link, frame, &links::read(frame));
    verdict(found)
}
