//! What stands on the list for the program `replay`, which runs the port's proved code beside it.

use crate::check::padded;
use crate::domain;
use crate::flat::{self, station, Flat, FlatAddress, ADDRESS, ADDRESSES, NOCALL, ONES, REPEATERS, RESERVED};
use crate::flat::{COUNT, DESTINATION, ENTRY, KIND, MARK, PID, PID_OCTET, POLL, RECEIVE, ROUTE, SEND, SOURCE};
use crate::inputs::{self, behind};
use crate::lines::{List, HEADING};
use crate::records;
use crate::relay_list;
use crate::rng::Rng;
use crate::texts;

/// Seeded inputs, info and texts are shorter than this, to keep the lines short.
pub const LONGEST: usize = 120;

/// Prints about this many lines: what is always there, and seeded inputs up to the number. The lines of relaying, of single groups, of
/// the layer 3 octet, of the reserved bits and of old captures come on top of these, so that no other line hangs on how many they are.
pub fn list(lines: usize) {
    println!("{}", HEADING);
    let mut list = List { lines: 0 };
    examples(&mut list);
    slips(&mut list);
    decoding(&mut list);
    beyond(&mut list);
    content(&mut list);
    writing(&mut list);
    refused_records(&mut list);
    hops(&mut list);
    text(&mut list);
    printing(&mut list);
    list.heading("Seeded frames and damaged copies; leading nulls by document 02 (M-108).");
    let left = lines.saturating_sub(list.lines);
    let mut keep = |input: &[u8]| {
        if domain::repeaters(input) <= flat::REPEATERS && input.len() < LONGEST {
            list.decode(input);
        }
    };
    inputs::frames(1, left / 2, &mut keep);
    inputs::damaged(2, left / 2, &mut keep);
    relay_list::relaying(&mut list);
    groups(&mut list);
    layer_3(&mut list);
    reserved_bits(&mut list);
    old_captures(&mut list);
}

/// P1 to P13 of document 01.
fn proved_examples() -> Vec<Vec<u8>> {
    let [short, field] = [[&inputs::FRAME[..12], &[0x41]].concat(), inputs::FRAME[..inputs::FIELD].to_vec()];
    let frames = [&[][..], &[0x8E, 0x82], &short, &field, &inputs::FRAME, &behind(1, &inputs::FRAME)].map(<[u8]>::to_vec);
    let contents = [&[0x03][..], &[0x0D], &[0x6F], &[0x87, 1, 2], &[0x87, 0xF1, 3, 0x44], &[0x01, 0xAA], &[0x03, 0x20]];
    frames.into_iter().chain(contents.map(inputs::with_content)).collect()
}

/// Document 01's examples, each under its name there.
fn examples(list: &mut List) {
    for (i, input) in proved_examples().iter().enumerate() {
        let by = match i + 1 {
            6 => ", by document 02 (M-108): the Rust skips the null",
            8 => ", by document 02 (M-109): SREJ, and the Rust answers 6",
            9 => ", by document 02 (M-109): SABME, and the Rust answers 7",
            13 => ", by document 02 (M-105): the Rust writes 03 10",
            _ => "",
        };
        list.heading(&format!("Example P{}{}.", i + 1, by));
        list.decode(input);
    }
    list.heading("Example span 76: eight repeaters.");
    both(list, 76);
    list.heading("Example span 77 with content: 9. By document 01: the Rust reads nine repeaters.");
    both(list, 77);
    for span in 15..=20 {
        list.heading(&format!("Example span {}: no repeater.", span));
        both(list, span);
    }
    for text in texts::DOCUMENT {
        list.heading(&format!("Example text {}", text));
        list.text(text.as_bytes());
    }
    list.heading("Example hops, by documents 01 and 02: of three places in use the first and the third are marked, and so is one not in");
    list.heading("use. The second is due.");
    list.hops(&route(0b1000_0101, 3));
    list.heading("Example hops, by document 01: a route count over 8 is read as 8.");
    list.hops(&route(0xFF, 9));
}

/// An RR and a UI frame behind an address field of this span.
fn both(list: &mut List, span: usize) {
    list.decode(&spanned(span, &[0x01]));
    list.decode(&spanned(span, &[0x03, 0xF0, 0x41]));
}

/// Document 01's slips to exclude: an input for each, on which it shows.
fn slips(list: &mut List) {
    list.heading("Slip: searching for the end by groups of seven. The end is at octet 15, and octet 20 has its low bit set too.");
    list.decode(&spanned(16, &[0x03, 0xF0, 0x41, 0x42, 0x43]));
    list.heading("Slip: refusing an RR with a tail.");
    list.decode(&inputs::with_content(&[0x01, 0xAA, 0x55]));
    list.heading("Slip: testing the callsign before the SSID text: 33, and neither 31 nor 32.");
    for text in ["TOOLONGX-300", "-300", "A_B-x"] {
        list.text(text.as_bytes());
    }
    list.heading("Slip: treating equal marks as Command when reading: neither set, both set.");
    list.decode(&with_ssids(0x60, 0x67, &[0x01]));
    list.decode(&with_ssids(0xE0, 0xE7, &[0x01]));
    list.heading("Slip: counting unused route places in an address check.");
    for address in [b"\xFFOX   \x03\x03", b"BOX12 \xFF\x03", b"BOX12 \x03\xFF"] {
        let mut record = records::base(flat::UI);
        record[COUNT] = 1;
        records::put(&mut record, ROUTE + ENTRY, *address);
        list.write(&record, b"OK");
    }
}

fn decoding(list: &mut List) {
    list.heading("The smallest inputs of docs/DIFFERENCES.md, A1 to A15: without A13, which is a record and stands among those, and for A1,");
    list.heading("A5, A6 and A8 those of B8, B7, B6 and B9, by document 02 (M-108, M-106, M-105, M-109).");
    for input in departures() {
        list.decode(&input);
    }
    list.heading("Other spans, with content and without.");
    for span in (1..15).chain(21..76) {
        list.decode(&spanned(span, &[0x01]));
        list.decode(&spanned(span, &[]));
    }
    list.heading("Nothing but nulls; leading nulls, by document 02 (M-108); no end.");
    for nulls in 1..=20 {
        list.decode(&vec![0; nulls]);
        list.decode(&behind(nulls, &inputs::FRAME));
        list.decode(&vec![0x82; nulls]);
    }
    list.heading("Every control octet, with content of 1 and 4 octets; the PID 5A, and SREJ, SABME, XID and TEST, by document 02 (M-105,");
    list.heading("M-109).");
    for control in 0..=255 {
        for content in [&[control][..], &[control, 0x5A, 0xB6, control]] {
            list.decode(&inputs::with_content(content));
        }
    }
    list.heading("Every PID; those of the layer 3 class by document 02 (M-105).");
    for pid in 0..=255 {
        list.decode(&inputs::with_content(&[0x03, pid, 0x41]));
    }
    list.heading("FRMR: its flags and numbers.");
    for flags in 0..16 {
        list.decode(&inputs::with_content(&[0x87, flags * 17, 0xFF - flags * 16, flags]));
        list.decode(&inputs::with_content(&[0x97, flags, flags * 17, 0xFF - flags]));
    }
    list.heading("Marks and reserved bits: the first two SSID octets; the reserved bits by document 02 (M-106).");
    for bits in 0..64_u8 {
        let mut input = inputs::FRAME.to_vec();
        input[6] = (bits & 7) << 5 | bits & 0x1E;
        input[13] = (bits >> 3) << 5 | 0x07;
        list.decode(&input);
    }
    list.heading("Callsign characters: empty, zeros, inner spaces, lower case; a destination that starts with zero by document 02 (M-108).");
    for callsign in [b"      ", b"\0\0\0\0\0\0", b"A B   ", b" A    ", b"\0A    ", b"a     ", b"\x7f\x01!%-*", b"A\0    "] {
        for at in [0, 7] {
            let mut input = inputs::FRAME.to_vec();
            callsign.iter().enumerate().for_each(|(i, c)| input[at + i] = c << 1);
            list.decode(&input);
        }
    }
    list.heading("One to eight repeaters with marks, each kind.");
    for count in 1..=8 {
        for content in inputs::contents().iter().step_by(3) {
            list.decode(&inputs::with_repeaters(count, content));
        }
    }
    list.heading("Spans of a field of twelve stations, odd ones among them, with content and without; the PID 20, reserved bits that are");
    list.heading("clear and leading nulls by document 02 (M-105, M-106, M-108).");
    for span in [13, 14, 15, 18, 20, 21, 28, 69, 70, 71, 75, 76] {
        for nulls in [0, 1, 3] {
            for content in [&[0x13, 0x20, 0x41, 0x42, 0x43][..], &[]] {
                let mut input = behind(nulls, &STATIONS[..span]);
                input[nulls + span - 1] |= 1;
                input.extend(content);
                list.decode(&input);
            }
        }
    }
    list.heading("The example with each bit damaged; the reserved bits by document 02 (M-106).");
    for bit in 0..8 * inputs::FRAME.len() {
        let mut input = inputs::FRAME.to_vec();
        input[bit / 8] ^= 1 << (bit % 8);
        list.decode(&input);
    }
}

/// The example with its SSID octets changed, and this content.
fn with_ssids(first: u8, second: u8, content: &[u8]) -> Vec<u8> {
    let mut input = inputs::with_content(content);
    input[6] = first;
    input[13] = second;
    input
}

/// One input for each place where the Rust departs from AX.25 (docs/DIFFERENCES.md, A; the sixth is B6 since M-105, the fifth B7 since
/// M-106, the first B8 since M-108, and SREJ, SABME, XID and TEST are B9 since M-109).
fn departures() -> Vec<Vec<u8>> {
    let mut empty_callsign = inputs::with_content(&[0x01]);
    empty_callsign[..6].fill(b' ' << 1);
    let left_over = with_ssids(0xE0, 0x66, &[0x01, 0x01]);
    vec![
        behind(1, &inputs::with_content(&[0x01])),
        left_over,
        empty_callsign,
        inputs::with_content(&[0x01, 0xAA]),
        with_ssids(0x80, 0x67, &[0x01]),
        inputs::with_content(&[0x03, 0x20]),
        inputs::with_repeaters(3, &[0x01]),
        inputs::with_content(&[0x0D]),
        inputs::with_content(&[0x6F]),
        inputs::with_content(&[0xAF]),
        inputs::with_content(&[0xE3]),
        inputs::with_content(&[0x87, 0x01, 0x02, 0x44]),
        inputs::with_content(&[0x87, 0xF1, 0x03, 0x44]),
        inputs::with_content(&[0x03, 0xFF, 0x01]),
        with_ssids(0x60, 0x67, &[0x01]),
        inputs::with_content(&[&[0x03, 0xF0][..], &[0x41; 257]].concat()),
        with_ssids(0x60, 0xE7, &[0x00, 0xF0]),
    ]
}

/// Document 01's example with an address field of this span, and this content.
pub fn spanned(span: usize, content: &[u8]) -> Vec<u8> {
    let mut input = inputs::with_repeaters(11, &[]);
    input.truncate(span);
    input[span - 1] |= 1;
    input.extend(content);
    input
}

/// GAUGE, BOX12-3 and eight repeaters: RELAY1-1*, HILL-15*, quay7-2, the empty callsign with SSID 4*, PIER-9 with its reserved bits
/// clear, "A B"-5*, LOCK22-14, MAST-7*.
pub const STATIONS: &[u8; 76] = b"\x8E\x82\xAA\x8E\x8A\x40\xE0\x84\x9E\xB0\x62\x64\x40\x66\xA4\x8A\x98\x82\xB2\x62\xE2\
    \x90\x92\x98\x98\x40\x40\xFE\xE2\xEA\xC2\xF2\x6E\x40\x64\x40\x40\x40\x40\x40\x40\xE8\xA0\x92\x8A\xA4\x40\x40\x12\
    \x82\x40\x84\x40\x40\x40\xEA\x98\x9E\x86\x96\x64\x64\x7C\x9A\x82\xA6\xA8\x40\x40\xEE\x88\xB2\x96\x8A\x62\x62";

fn content(list: &mut List) {
    list.heading("Content alone, by document 01 where there is none (4); the Rust's behind an address field: every control octet with");
    list.heading("content of 0 to 5 octets, and what was read written again; the PID A5, and SREJ, SABME, XID and TEST, by document 02");
    list.heading("(M-105, M-109).");
    list.content(&[]);
    for control in 0..=255 {
        for length in 1..=5 {
            list.content(&[control, 0xA5, 0x3C, 0x5A, 0x0F][..length]);
        }
    }
    list.heading("Content alone, written into rooms that are short, exactly full and longer; by document 01 where info is not allowed (23)");
    list.heading("or the room is short (24); SREJ and XID by document 02 (M-109).");
    for (record, info, rooms) in contents() {
        for &room in rooms {
            list.write_content(&record, info, room);
        }
    }
}

/// A record's content, its info, and rooms for them.
type Rooms = (Flat, &'static [u8], &'static [usize]);

fn contents() -> Vec<Rooms> {
    let ui = with(flat::UI, 0, 1, 0, 0);
    let i = with(flat::I, 0, 1, 9, 255);
    let rr = with(flat::RR, 0, 0, 3, 0);
    let mut frmr = with(flat::FRMR, 0, 0, 5, 1);
    frmr[flat::Y] = 1;
    frmr[flat::X] = 1;
    frmr[flat::REJECTED_RESPONSE] = 1;
    frmr[flat::REJECTED_CONTROL] = 0x44;
    let (srej, xid) = (with(flat::SREJ, 0, 1, 13, 0), with(flat::XID, 0, 1, 0, 0));
    let unknown = records::base(flat::UNKNOWN_CONTENT);
    vec![
        (ui, b"OK", &[3, 4, 6]),
        (ui, b"", &[1, 2]),
        (i, b"OK", &[0, 3, 4, 8]),
        (rr, b"", &[0, 1, 2]),
        (rr, b"OK", &[0, 8]),
        (frmr, b"", &[3, 4, 5]),
        (frmr, b"K", &[0, 5]),
        (srej, b"", &[0, 1, 2]),
        (srej, b"OK", &[0, 8]),
        (xid, b"OK", &[2, 3, 4]),
        (xid, b"", &[0, 1, 2]),
        (unknown, b"OK!", &[2, 3, 5]),
        (unknown, b"", &[0, 2]),
    ]
}

/// A plain record with these fields.
fn with(kind: u8, mark: u8, poll: u8, receive: u8, send: u8) -> Flat {
    let mut record = records::base(kind);
    record[MARK] = mark;
    record[POLL] = poll;
    record[RECEIVE] = receive;
    record[SEND] = send;
    record
}

fn writing(list: &mut List) {
    list.heading("The default frame, and new_simple_ui_frame.");
    list.default_frame();
    for (source, destination) in [(b"BOX12 \x03", b"GAUGE \x00"), (b"GAUGE \x00", b"BOX12 \x03"), (b"A B   \x0F", b"      \x01")] {
        list.simple_ui(&station(source), &station(destination));
    }
    list.heading("Records written: every kind, mark and P/F, sequence numbers over 7; SREJ, SABME, XID and TEST by document 02 (M-109).");
    for kind in 0..=flat::UNKNOWN_CONTENT {
        for (mark, poll, receive, send) in [(0, 0, 1, 2), (1, 1, 9, 14), (2, 0, 255, 8), (2, 1, 7, 7)] {
            list.write(&with(kind, mark, poll, receive, send), b"");
        }
    }
    list.heading("Into room exactly full; by document 01 one octet short and none (24), and longer; the same four kinds by document 02 (M-109).");
    for kind in 0..=flat::UNKNOWN_CONTENT {
        let info: &[u8] = if flat::has_info(kind) { b"OK" } else { b"" };
        list.write_rooms(&with(kind, 1, 1, 3, 5), info);
    }
    list.heading("The frame of a record: a flag of 2 is set, a number past the last case is that case, a field that the kind lacks is 0; the");
    list.heading("same four kinds by document 02 (M-109).");
    for kind in 0..=flat::UNKNOWN_CONTENT + 1 {
        let mut record = [2; flat::FLAT];
        record[KIND] = kind;
        record[PID] = 13 + kind % 4;
        list.again(&record);
    }
    list.heading("Seeded records.");
    records::holdable(3, 140, &mut |record, info| {
        if info.len() < LONGEST {
            list.write(&padded(record), info);
        }
    });
    list.heading("Writing, by document 01: one octet short (24).");
    records::holdable(4, 20, &mut |record, info| {
        if info.len() < LONGEST {
            list.write_short(&padded(record), info);
        }
    });
}

fn refused_records(list: &mut List) {
    list.heading("Writing, by document 01, each refusal with those after it, into no room too: 21, 22, 23, 24, and 0.");
    let mut odd = with(flat::RR, 0, 0, 0, 0);
    records::put(&mut odd, ROUTE + ENTRY, station(b"\xFFOX   \xFF"));
    for (count, info) in [(9, &b"OK"[..]), (2, b"OK"), (1, b"OK"), (1, b"")] {
        odd[COUNT] = count;
        list.write_rooms(&odd, info);
    }
    list.heading("Writing, by document 01 (22): the first character and SSID that are too high, and the last that are not, as destination,");
    list.heading("source, a repeater in use, and in a place that is not.");
    for address in [b"BOX12\x80\x03", b"BOX12 \x10", b"BOX12\x7F\x0F"] {
        for (at, count) in [(flat::DESTINATION, 0), (flat::SOURCE, 0), (ROUTE + ENTRY, 2), (ROUTE + ENTRY, 1)] {
            let mut record = records::base(flat::UI);
            record[COUNT] = count;
            records::put(&mut record, at, station(address));
            list.write_rooms(&record, b"");
        }
    }
    list.heading("Writing, by document 01: a route count over 8 (21), a character or SSID too high (22), info where there is none (23); by");
    list.heading("document 02 (M-106) reserved bits over 3 (22), and (M-105) a layer 3 octet outside the class (25).");
    let mut every = 0;
    records::unholdable(&mut |record, info| {
        every += 1;
        if every % 41 == 0 && info.len() < LONGEST {
            list.write(&padded(record), info);
        }
    });
    records::seeded_unholdable(5, 40, &mut |record, info| list.write(&padded(record), info));
}

/// A record with this many repeaters, place i marked where bit i is set.
fn route(marks: u8, count: u8) -> Flat {
    let mut record = records::base(flat::UI);
    record[COUNT] = count;
    for i in 0..flat::REPEATERS {
        record[ROUTE + ENTRY * i + ADDRESS] = marks >> i & 1;
    }
    record
}

fn hops(list: &mut List) {
    list.heading("Hops, by documents 01 and 02: counts of 0 to 8, and over 8, which are read as 8.");
    for marks in [0x00, 0xFF, 0x01, 0x07, 0x80, 0xA5, 0xFE, 0xBF] {
        for count in (0..=9).chain([255]) {
            list.hops(&route(marks, count));
        }
    }
    list.heading("Stations, by document 01: the same, another SSID, another last character, another first one, lower case; places not in use.");
    for other in [b"BOX12 \x03", b"BOX12 \x04", b"BOX12A\x03", b"COX12 \x03", b"box12 \x03", b"NOCALL\x00"] {
        list.same_station(&station(b"BOX12 \x03"), &station(other));
    }
    list.same_station(&NOCALL, &NOCALL);
}

/// Texts where two conditions hold at once, and characters beside the letters and digits.
const ODD_TEXTS: [&[u8]; 42] = [
    b"vk7ntk", b"vK7nTk-7", b"1234567", b" BOX", b"BO X", b"BOX ", b"BOX/", b"BOX:", b"BOX@", b"BOX[", b"BOX`", b"BOX{", b"BOX_", b"09AZaz",
    b"BOX\x7f", b"BOX\x00", b"A-B-C", b"BOX-1-", b"-BOX", b"-BOX-1", b"+", b"++1", b"1+", b"BOX-+", b"BOX-5a", b"BOX-/", b"BOX-:", b"BOX-+0015",
    b"BOX-000000000000000000000000000000000007", b"BOX-15", b"BOX-16", b"BOX-255", b"BOX-256", b"BOX-00256", b"BOX-18446744073709551621",
    b"ABCDEFG-300", b"AB@-300", b"-16", b"ABCDEF@", b"AB@-16", b"ABCDEFG-16", b"BOX-+-1",
];

fn text(list: &mut List) {
    list.heading("Texts at the limits of each rule, and with two conditions at once.");
    texts::LIMITS.iter().for_each(|text| list.text(text.as_bytes()));
    ODD_TEXTS.iter().for_each(|text| list.text(text));
    list.heading("Seeded texts, and callsigns with an SSID.");
    texts::seeded(6, 150, &mut |text| {
        if text.len() < LONGEST {
            list.text(text);
        }
    });
    for callsign in ["", "A", "abcdef", "box12", "ABCDEFG", "ABCDEF@", "A-1", "A B"] {
        for ssid in [0, 15, 16, 255] {
            list.parts(callsign.as_bytes(), ssid);
        }
    }
    list.heading("Text, by document 01: an octet of 128 or more (35), before all else.");
    for text in texts::WIDE {
        list.text(text.as_bytes());
        list.parts(text.as_bytes(), 3);
    }
    for text in [&b"\x80"[..], b"BOX-\xFF", b"BOX\x80", b"\x80--300", b"BOX-5\xC2\xB2"] {
        list.text(text);
    }
    for callsign in [&b"BOX\x80"[..], b"\xFFABCDEFG"] {
        list.parts(callsign, 16);
    }
}

fn printing(list: &mut List) {
    list.heading("Addresses printed.");
    let mut rng = Rng::new(7);
    for known in [b"BOX12 \x03", b"BOX12 \x00", b"      \x00", b"      \x01", b"ABCDEF\x0f", b"\0\0\0\0\0\0\x0a", b" a B  \x09"] {
        list.print(&station(known));
    }
    for known in [b"box   \x0a", b"A B   \x09", b" A    \x01", b"B\0X \0 \x00", b"B\x7f--  \x07"] {
        list.print(&station(known));
    }
    let seeded: Vec<FlatAddress> = (0..40).map(|_| records::any_address(&mut rng)).collect();
    seeded.iter().for_each(|address| list.print(address));
    list.heading("Printing, by document 01: one octet short and none (24), longer room; a character or SSID too high (22).");
    for (known, rooms) in [(b"BOX12 \x03", [6, 0, 12]), (b"VK7NTK\x0F", [8, 0, 12]), (b"NOCALL\x00", [5, 0, 12]), (b"      \x00", [0, 1, 12])] {
        rooms.iter().for_each(|&room| list.print_in(&station(known), room));
    }
    for known in [b"BOX12 \x10", b"BOX12 \xff", b"\x80OX12 \x00", b"BOX12\xff\x00"] {
        list.print(&station(known));
        list.print_in(&station(known), 0);
    }
}

/// Whether the mark and the end bit are set, all four ways.
const BITS: [[bool; 2]; 4] = [[false, false], [true, false], [false, true], [true, true]];

fn groups(list: &mut List) {
    list.heading("Groups of one address, as the Rust writes them in a route; the reserved bits by document 02 (M-106).");
    let mut rng = Rng::new(11);
    let every_ssid = (0..16).map(|ssid| station(&[b'B', b'O', b'X', b'1', b'2', b' ', ssid]));
    let seeded = (0..24).map(|_| records::any_address(&mut rng));
    let known = [[0; ADDRESS], station(b"\x7f\x7f\x7f\x7f\x7f\x7f\x0f"), NOCALL];
    for (i, address) in every_ssid.chain(seeded.collect::<Vec<_>>()).chain(known).enumerate() {
        BITS.iter().for_each(|&[mark, end]| list.group(&address, mark, end, i % 3));
    }
    list.heading("Groups, by document 01: not seven octets from the place on (24); a character or SSID too high (22), before 24.");
    for at in [3, 4, 9, 10, 1000] {
        BITS.iter().for_each(|&[mark, end]| list.group(&station(b"BOX12 \x03"), mark, end, at));
    }
    for known in [b"BOX12 \x10", b"BOX12 \xff", b"\x80OX12 \x00", b"BOX12\xff\x00"] {
        [0, 2, 3].iter().for_each(|&at| list.group(&station(known), true, false, at));
    }
}

/// The first and the last octet of each row of the layer 3 class, and of each row outside it.
const OF_CLASS: [u8; 8] = [0x10, 0x2F, 0x50, 0x6F, 0x90, 0xAF, 0xD0, 0xEF];
const OUTSIDE: [u8; 10] = [0x00, 0x0F, 0x30, 0x4F, 0x70, 0x8F, 0xB0, 0xCF, 0xF0, 0xFF];

fn layer_3(list: &mut List) {
    list.heading("Writing, by document 02 (M-105): a layer 3 identifier as the octet that it carries; refused where that is outside the class");
    list.heading("(25); and the frame of each record.");
    for octet in OF_CLASS.into_iter().chain(OUTSIDE) {
        let (i, ui) = (layer_3_record(flat::I, octet), layer_3_record(flat::UI, octet));
        list.write(&i, b"OK");
        list.write(&ui, b"");
        list.again(&ui);
    }
    list.heading("Writing, by document 02 (M-105): each refusal with those after it, into no room too: 21, 22, 25, 24, and 0.");
    let mut odd = layer_3_record(flat::UI, 0x30);
    records::put(&mut odd, ROUTE + ENTRY, station(b"\xFFOX   \xFF"));
    for (count, octet) in [(9, 0x30), (2, 0x30), (1, 0x30), (1, 0x20)] {
        odd[COUNT] = count;
        odd[PID_OCTET] = octet;
        list.write_rooms(&odd, b"OK");
    }
    list.heading("Writing, by document 02 (M-105): 25 into room just as long as the frame would be, and one octet short.");
    for room in [18, 17] {
        list.write_in(&layer_3_record(flat::UI, 0xF0), b"OK", room);
        list.write_in(&layer_3_record(flat::I, 0x0F), b"OK", room);
    }
    list.heading("Writing: 25 is not for kinds without a PID, one of which info refuses by document 01 (23), nor for an unknown PID of the class.");
    list.write(&layer_3_record(flat::RR, 0x30), b"");
    list.write(&layer_3_record(flat::RR, 0x30), b"OK");
    list.write(&layer_3_record(flat::UNKNOWN_CONTENT, 0x30), b"OK");
    list.write(&records::with_pid(flat::UI, flat::PID_UNKNOWN, 0x20), b"OK");
    list.heading("Content written alone, by document 02 (M-105): the octet of the class, into short rooms (24) and longer; others (25).");
    let (i, ui) = ([(0xEF, [0, 4, 6]), (0xF0, [0, 4, 6])], [(0x20, [3, 4, 6]), (0x30, [0, 3, 4])]);
    for (kind, octets) in [(flat::I, i), (flat::UI, ui)] {
        for (octet, rooms) in octets {
            rooms.iter().for_each(|&room| list.write_content(&layer_3_record(kind, octet), b"OK", room));
        }
    }
}

/// A plain record whose PID, where the kind has one, is layer 3 with this octet.
fn layer_3_record(kind: u8, octet: u8) -> Flat {
    records::with_pid(kind, flat::PID_LAYER_3, octet)
}

/// Numbers over 3: the next ones, some that two bits would cut to 0, to 1 and to 3, and the bits where a group has them.
const OVER: [u8; 8] = [4, 5, 7, 8, 0x40, 0x60, 0x80, 0xFF];

fn reserved_bits(list: &mut List) {
    list.heading("Decoding, by document 02 (M-106): every setting of the reserved bits in each group of a frame with eight repeaters; each");
    list.heading("group with another than the one before it, with octets left over; and the same behind nulls (M-108).");
    for group in 0..ADDRESSES {
        for reserved in 0..=ONES {
            let mut input = inputs::with_repeaters(REPEATERS, &[0x03, 0xF0]);
            inputs::set_reserved(&mut input, group, reserved);
            list.decode(&input);
        }
    }
    for span in [14, 17, 28, 70, 76] {
        let mut input = spanned(span, &[0x03, 0xF0, 0x41]);
        (0..span / 7).for_each(|group| inputs::set_reserved(&mut input, group, group as u8 % 4));
        list.decode(&input);
        list.decode(&behind(2, &input));
    }
    written_reserved(list);
    addresses_reserved(list);
}

fn written_reserved(list: &mut List) {
    list.heading("Writing, by document 02 (M-106): every setting in each address in use, and the frame of each record.");
    for (count, address) in IN_USE {
        for reserved in 0..=ONES {
            let record = records::with_reserved(count, address, reserved);
            list.write(&record, b"");
            list.again(&record);
        }
    }
    list.heading("Writing, by document 02 (M-106): numbers over 3 in an address in use (22), and in a place that is not.");
    for number in OVER {
        IN_USE.iter().for_each(|&(count, address)| list.write(&records::with_reserved(count, address, number), b""));
        list.write(&records::with_reserved(7, LAST_PLACE, number), b"");
        list.again(&records::with_reserved(8, LAST_PLACE, number));
    }
    list.heading("Writing, by documents 01 and 02 (M-106): each refusal with those after it, into no room too: 21, 22, 23, 24, and 0.");
    let mut odd = with(flat::RR, 0, 0, 0, 0);
    odd[ROUTE + ENTRY + RESERVED] = 4;
    for (count, info) in [(9, &b"OK"[..]), (2, b"OK"), (1, b"OK"), (1, b"")] {
        odd[COUNT] = count;
        list.write_rooms(&odd, info);
    }
    list.heading("Writing, by document 02 (M-105, M-106): 22 comes before 25.");
    let mut odd = layer_3_record(flat::UI, 0x30);
    odd[SOURCE + RESERVED] = 4;
    list.write_rooms(&odd, b"OK");
}

/// Destination, source, the first repeater and the last of eight, each with a route count by which it is in use.
const IN_USE: [(usize, usize); 4] = [(0, DESTINATION), (0, SOURCE), (1, ROUTE), (8, LAST_PLACE)];
const LAST_PLACE: usize = ROUTE + 7 * ENTRY;

fn addresses_reserved(list: &mut List) {
    let box12 = |reserved: u8| [b'B', b'O', b'X', b'1', b'2', b' ', 3, reserved];
    list.heading("Addresses printed, and stations compared, by document 02 (M-106): whatever the reserved bits are; printing refuses over 3");
    list.heading("(22), before 24.");
    for number in (0..=ONES).chain(OVER) {
        list.print(&box12(number));
        list.print_in(&box12(number), 0);
        list.same_station(&box12(ONES), &box12(number));
        list.same_station(&box12(number), &station(b"BOX12 \x04"));
    }
    list.heading("new_simple_ui_frame, by document 02 (M-106): the addresses keep their reserved bits, and those over 3 too.");
    for (from, to) in [(0, 1), (1, 2), (2, 3), (3, 0), (4, 255)] {
        list.simple_ui(&box12(from), &box12(to));
    }
    list.heading("Groups, by document 02 (M-106): every setting, and numbers over 3 (22), before 24.");
    for number in (0..=ONES).chain(OVER) {
        BITS.iter().for_each(|&[mark, end]| list.group(&box12(number), mark, end, 1));
        list.group(&box12(number), true, false, 3);
    }
}

fn old_captures(list: &mut List) {
    list.heading("Leading nulls, by document 02 (M-108): the smallest input that the Rust refuses by another number; what the Rust refuses by");
    list.heading("its address field, or reads with nine repeaters; and every sort of content.");
    list.decode(&[0x00, 0x02]);
    for input in [spanned(13, &[0x01]), spanned(14, &[]), spanned(77, &[0x01])] {
        [1, 9].iter().for_each(|&nulls| list.decode(&behind(nulls, &input)));
    }
    for content in inputs::contents() {
        [1, 9].iter().for_each(|&nulls| list.decode(&behind(nulls, &inputs::with_repeaters(1, &content))));
    }
    list.heading("Old captures without nulls: examples P1 to P5 and P7 to P13, the last by document 02 (M-105); eight repeaters; nine, by");
    list.heading("document 01 (9).");
    proved_examples().iter().filter(|input| input.first() != Some(&0)).for_each(|input| list.old_capture(input));
    [76, 77].iter().for_each(|&span| list.old_capture(&spanned(span, &[0x03, 0xF0, 0x41])));
}

fn beyond(list: &mut List) {
    list.heading("Decoding, by document 01: nine or more repeaters (9); nothing after them is 4 still.");
    for span in 78..=91 {
        list.decode(&spanned(span, &[0x01]));
        list.decode(&spanned(span, &[]));
    }
    for content in [&[0x03][..], &[0x0D], &[0x6F], &[0x87]] {
        list.decode(&inputs::with_repeaters(9, content));
    }
}
