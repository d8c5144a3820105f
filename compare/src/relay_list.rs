//! The relay's lines on the list for `replay`. The Rust has no relay: each heading names document 02.

use crate::check;
use crate::domain;
use crate::flat::{self, ONES, RESERVED};
use crate::inputs::{self, behind};
use crate::lines::List;
use crate::relays::{self, Own};
use crate::replay::{spanned, LONGEST, STATIONS};
use crate::rng::Rng;

/// UI with a PID that re-encoding would change.
const CONTENT: [u8; 3] = [0x03, 0x20, 0x41];
/// Where the last octet of our group stands in `ours`.
const LAST: usize = inputs::FIELD + 6;

pub fn relaying(list: &mut List) {
    readme(list);
    no_address(list);
    numbers(list);
    used_up(list);
    another_station(list);
    places(list);
    marks(list);
    around_the_route(list);
    reserved_bits(list);
    contents(list);
    own_addresses(list);
    stations(list);
    seeded(list);
}

fn heading(list: &mut List, text: &str) {
    list.heading(&format!("Relaying, by document 02: {}", text));
}

/// HILL1-2, who is our own station where nothing else is said.
fn hill() -> Own {
    Own::new(b"HILL1", 2)
}

/// Document 01's example with one repeater, HILL1-2, who is not marked.
fn ours(content: &[u8]) -> Vec<u8> {
    with_station(b"HILL1 \x02", content)
}

/// The same with another repeater.
fn with_station(repeater: &[u8; RESERVED], content: &[u8]) -> Vec<u8> {
    inputs::with_repeater(&flat::station(repeater), content)
}

/// The same with this last octet of the repeater's group: mark, reserved bits, SSID, end.
fn ours_with(last: u8) -> Vec<u8> {
    let mut frame = ours(&CONTENT);
    frame[LAST] = last;
    frame
}

/// The repeater that `inputs::with_route` names after this number.
fn named(i: usize) -> Own {
    Own::new(format!("RELAY{}", i).as_bytes(), i as u8)
}

/// Repeaters named after their places, those marked whose bit is set.
fn marked(count: usize, marks: usize) -> Vec<u8> {
    inputs::with_route((0..count).map(|i| (i, marks >> i & 1 == 1)), &CONTENT)
}

fn readme(list: &mut List) {
    heading(list, "the README's frame, UI with PID 20 hex and one repeater, ours; what that leaves, again (41).");
    let frame = ours(&[0x03, 0x20]);
    list.relay(&hill(), &frame);
    list.relay(&hill(), &domain::relayed(&frame, Ok(0)));
}

fn no_address(list: &mut List) {
    heading(list, "22 before all else: seven octets, one of 128 or more, an SSID over 15, all of them. The frame is empty (1),");
    list.heading("is refused and has no repeater (7, 41), has one that most of these would be if they were cut to their bits, or has nulls before");
    list.heading("it (10).");
    let none = [(&b"HILL1  "[..], 2), (b"HILL\xB1", 2), (b"HILL1\x80", 2), (b"HILL1", 16), (b"HILL1", 0xF2), (b"HILL1\xA0 ", 18)];
    for (callsign, ssid) in none {
        for frame in [vec![], inputs::with_content(&[0x07]), ours(&CONTENT), behind(1, &ours(&CONTENT))] {
            list.relay(&Own::new(callsign, ssid), &frame);
        }
    }
}

fn numbers(list: &mut List) {
    heading(list, "decoding's numbers, where the repeater that is due is ours: 1, 2, 3, 4, 9, 5, 7, 8.");
    let mut endless = ours(&[0x02, 0x20]);
    endless[LAST] &= 0xFE;
    let short = spanned(13, &CONTENT);
    for frame in [vec![], vec![0; 3], endless, short, ours(&[])] {
        list.relay(&hill(), &frame);
    }
    list.relay(&named(5), &inputs::with_repeaters(9, &CONTENT));
    let refused = [&[0x00][..], &[0x03], &[0x07], &[0xFF], &[0x87, 0x01, 0x02], &[0x87, 0x01, 0x02, 0x44, 0x55]];
    refused.iter().for_each(|content| list.relay(&hill(), &ours(content)));
    heading(list, "they come before 41, before 42 and before 43.");
    for content in [&[][..], &[0x03], &[0x07], &[0xFF], &[0x87]] {
        list.relay(&hill(), &inputs::with_content(content));
        list.relay(&hill(), &inputs::with_repeaters(2, content));
        list.relay(&named(0), &inputs::with_route([(0, false), (1, true)].into_iter(), content));
    }
}

fn used_up(list: &mut List) {
    heading(list, "41, no repeater: spans of 14 to 20.");
    (14..=20).for_each(|span| list.relay(&named(0), &spanned(span, &CONTENT)));
    heading(list, "41, each of one to eight repeaters is marked.");
    (1..=8).for_each(|count| list.relay(&named(count - 1), &marked(count, 0xFF)));
}

fn another_station(list: &mut List) {
    heading(list, "42, another callsign: each character, lower case, shorter, longer, with a null, none, spaces elsewhere.");
    for i in 0..6 {
        let mut callsign = *b"HILL1 ";
        callsign[i] ^= 1;
        list.relay(&Own::new(&callsign, 2), &ours(&CONTENT));
    }
    for callsign in [&b"hill1"[..], b"Hill1", b"HILL", b"HILL12", b"HILL1\0", b""] {
        list.relay(&Own::new(callsign, 2), &ours(&CONTENT));
    }
    for repeater in [b"hill1 \x02", b"HILL 1\x02", b" HILL1\x02"] {
        list.relay(&hill(), &with_station(repeater, &CONTENT));
    }
    heading(list, "42, another SSID, by each of its bits; destination and source, who are no repeaters.");
    [3, 0, 6, 10].iter().for_each(|&ssid| list.relay(&Own::new(b"HILL1", ssid), &ours(&CONTENT)));
    list.relay(&Own::new(b"GAUGE", 0), &ours(&CONTENT));
    list.relay(&Own::new(b"BOX12", 3), &ours(&CONTENT));
}

fn places(list: &mut List) {
    heading(list, "every place of routes of one to eight, all those before it being marked.");
    for count in 1..=8 {
        for due in 0..count {
            list.relay(&named(due), &marked(count, (1 << due) - 1));
        }
    }
}

fn marks(list: &mut List) {
    heading(list, "the report of M-102. Of three places the first and the third are marked: 43 to each of them and to another.");
    (0..4).for_each(|i| list.relay(&named(i), &marked(3, 0b101)));
    heading(list, "43 comes before 42, and after 41, which a mark beyond the route does not change: such marks stand in the info.");
    for marks in [0b0110, 0b0100, 0b1010, 0b1000] {
        (0..4).for_each(|i| list.relay(&named(i), &marked(4, marks)));
    }
    for count in [0, 1, 2] {
        (0..4).for_each(|i| list.relay(&named(i), &inputs::with_marks_beyond(count, (1 << count) - 1)));
    }
    heading(list, "every set of marks of three places, relayed by each of them.");
    for marks in 0..8 {
        (0..3).for_each(|i| list.relay(&named(i), &marked(3, marks)));
    }
    heading(list, "one station at both places, every set of marks.");
    for marks in 0..4 {
        list.relay(&named(1), &inputs::with_route((0..2).map(|i| (1, marks >> i & 1 == 1)), &CONTENT));
    }
}

fn around_the_route(list: &mut List) {
    heading(list, "10, nulls before a frame that is ours to pass on (M-108), the last one with octets left over in its address");
    list.heading("field.");
    for nulls in (1..=8).chain([20]) {
        list.relay(&hill(), &behind(nulls, &ours(&CONTENT)));
    }
    list.relay(&named(1), &behind(3, &spanned(33, &CONTENT)));
    heading(list, "10 comes before decoding's other numbers, and before 41, 42 and 43 (M-108).");
    for frame in [vec![0x02], spanned(13, &CONTENT), ours(&[]), inputs::with_repeaters(9, &CONTENT), ours(&[0x07])] {
        list.relay(&hill(), &behind(1, &frame));
    }
    for frame in [marked(3, 0b111), marked(3, 0b101), marked(3, 0b001)] {
        list.relay(&hill(), &behind(1, &frame));
    }
    heading(list, "one to six octets left over in the address field stay. The second of two is due.");
    for left_over in 1..=6 {
        list.relay(&named(1), &spanned(28 + left_over, &CONTENT));
    }
    heading(list, "reserved bits stay, set or clear, and so do the marks of destination and source.");
    [0x05, 0x25, 0x45, 0x65].iter().for_each(|&last| list.relay(&hill(), &ours_with(last)));
    for (destination, source) in [(0x00, 0x06), (0x60, 0xE6), (0xE0, 0xE6)] {
        let mut frame = ours(&CONTENT);
        frame[6] = destination;
        frame[13] = source;
        list.relay(&hill(), &frame);
    }
}

fn reserved_bits(list: &mut List) {
    heading(list, "every setting of the reserved bits (M-106), in each group of a frame with three repeaters, stays, and is not");
    list.heading("compared. The second is due: by it, by the third (42), and by it where a mark follows (43) or all are marked (41).");
    for group in 0..5 {
        for reserved in 0..=ONES {
            for (own, marks) in [(1, 0b001), (2, 0b001), (1, 0b101), (1, 0b111)] {
                let mut frame = marked(3, marks);
                inputs::set_reserved(&mut frame, group, reserved);
                list.relay(&named(own), &frame);
            }
        }
    }
    heading(list, "eight repeaters, each in turn, and each group with other reserved bits (M-106) than the one before it.");
    for due in 0..8 {
        let mut frame = marked(8, (1 << due) - 1);
        (0..10).for_each(|group| inputs::set_reserved(&mut frame, group, (group + due) as u8 % 4));
        list.relay(&named(due), &frame);
    }
}

fn contents(list: &mut List) {
    heading(list, "content of each kind stays, SREJ, SABME, XID and TEST too (M-109).");
    inputs::contents().iter().take(inputs::CONTENTS).for_each(|content| list.relay(&hill(), &ours(content)));
    heading(list, "tails after RR, SABM, UA, SREJ and SABME stay, and FRMR's unnamed bits, and PIDs of the layer 3 class.");
    let frmr = [&[0x87, 0xF1, 0x03, 0x44][..], &[0x97, 0xFF, 0xFF, 0xFF]];
    let tails = [&[0x01, 0xAA, 0x55][..], &[0x2F, 0x00], &[0x73, 0xFF, 0x01], &[0x2D, 0xAA], &[0x7F, 0x03, 0xF0]];
    for content in tails.iter().chain(&frmr) {
        list.relay(&hill(), &ours(content));
    }
    [0x10, 0x1F, 0x90, 0x20, 0x2F, 0xEF].iter().for_each(|&pid| list.relay(&hill(), &ours(&[0x03, pid])));
    heading(list, "info of 257 octets stays.");
    list.relay(&hill(), &ours(&[&[0x03, 0xF0][..], &[0x41; 257]].concat()));
}

fn own_addresses(list: &mut List) {
    heading(list, "callsigns of 0 to 6 octets, without the spaces that pad them and with all; of 7 (22).");
    for length in 0..=6 {
        let mut padded = flat::blank(15);
        padded[..length].copy_from_slice(&b"PIER22"[..length]);
        let frame = inputs::with_repeater(&padded, &CONTENT);
        list.relay(&Own::new(&padded[..length], 15), &frame);
        list.relay(&Own::of(&padded), &frame);
    }
    list.relay(&Own::new(b"PIER22 ", 15), &with_station(b"PIER22\x0F", &CONTENT));
    heading(list, "characters as they are, and every bit of the SSID.");
    for address in [b"hill1 \x01", b"A B   \x02", b" A    \x04", b"\0\0\0\0\0\0\x08", b"\x7F\x01!%-*\x00"] {
        list.relay(&Own::of(&flat::station(address)), &with_station(address, &CONTENT));
    }
}

fn stations(list: &mut List) {
    heading(list, "three, six and eight repeaters, relayed by each of them; some in lower case, without a callsign, with a");
    list.heading("space in it, with reserved bits clear.");
    for count in [3, 6, 8] {
        let mut frame = STATIONS[..inputs::FIELD + 7 * count].to_vec();
        *frame.last_mut().expect("the field is not empty") |= 1;
        frame.extend(CONTENT);
        let read = check::decoded(&frame);
        read.iter().flat_map(relays::of_route).for_each(|own| list.relay(&own, &frame));
    }
}

fn seeded(list: &mut List) {
    heading(list, "seeded frames and damaged copies, by a station of the route, almost the one that is due, or none; leading");
    list.heading("nulls by M-108.");
    let mut draw = Rng::new(8);
    let mut keep = |input: &[u8]| {
        if input.len() < LONGEST {
            let all = relays::around(&check::read_old(input), &mut draw);
            list.relay(draw.pick(&all), input);
        }
    };
    inputs::frames(9, 20, &mut keep);
    inputs::damaged(10, 10, &mut keep);
}
