//! KISS packets: all of them where they are short, each octet where it counts, seeded ones that hold many escapes, and damaged copies.

use crate::inputs::Each;
use crate::kiss::{self, FEND, FESC, PORTS, TFEND, TFESC};
use crate::rng::Rng;

/// The octets that mean something to a reader, and types: ports 0, 1, 11 and 12, a command that is none; and data.
pub const OCTETS: [u8; 10] = [FEND, FESC, TFEND, TFESC, 0x00, 0x01, 0x10, 0xB0, 0xC1, 0x41];

/// Every string of these octets to length 3, and to length 6 those that start with C0.
pub fn short(each: Each) {
    let mut packets = vec![Vec::new()];
    for length in 0..=6 {
        packets.iter().for_each(|packet| each(packet));
        let longer = |packet: &Vec<u8>| OCTETS.map(|octet| [&packet[..], &[octet]].concat());
        packets.retain(|packet| length < 3 || packet[0] == FEND);
        packets = packets.iter().flat_map(longer).collect();
    }
}

/// Every octet as the first, as the type, escaped and as it is, behind DB, as data and behind the packet.
pub fn every_octet(each: Each) {
    for octet in 0..=255 {
        for data in [&[][..], &[octet], &[0x41, octet, FEND], &[FESC, octet]] {
            each(&kiss::packet(octet, data));
            each(&kiss::packet(0x50, data));
        }
        each(&[octet, 0x00, 0x41, FEND]);
        each(&[FEND, octet, 0x41, FEND]);
        each(&[FEND, 0x00, octet, FEND]);
        each(&[FEND, 0x00, 0x41, octet]);
        each(&[FEND, FESC, octet, 0x41, FEND]);
        each(&[FEND, 0x00, FESC, octet, FEND]);
        each(&[FEND, 0x00, 0x41, FEND, octet]);
    }
}

/// Data of 0 to 300 octets, in some of which every octet, or every second, is one that means something.
pub fn data(draw: &mut Rng) -> Vec<u8> {
    let longest = *draw.pick(&[2, 8, 40, 300]);
    let length = draw.within(0, longest);
    let mut data = draw.octets(length);
    let often = draw.below(3);
    for octet in &mut data {
        if often > 0 && draw.chance(often) {
            *octet = *draw.pick(&OCTETS);
        }
    }
    data
}

/// Any port, over 11 too; one packet of four has another command than data.
pub fn kind(draw: &mut Rng) -> u8 {
    (draw.below(16) << 4) as u8 | if draw.chance(4) { draw.below(16) as u8 } else { 0 }
}

pub fn seeded(seed: u64, count: usize, each: Each) {
    let mut draw = Rng::new(seed);
    for _ in 0..count {
        each(&kiss::packet(kind(&mut draw), &data(&mut draw)));
    }
}

/// Packets on ports 0 to 11, each damaged at one to three places.
pub fn damaged(seed: u64, count: usize, each: Each) {
    let mut draw = Rng::new(seed);
    for _ in 0..count {
        each(&damaged_one(&mut draw));
    }
}

pub fn damaged_one(draw: &mut Rng) -> Vec<u8> {
    let mut packet = kiss::packet((draw.below(PORTS.into()) << 4) as u8, &data(draw));
    for _ in 0..draw.within(1, 3) {
        damage(&mut packet, draw);
    }
    packet
}

fn damage(packet: &mut Vec<u8>, draw: &mut Rng) {
    let (at, octet) = (draw.below(packet.len() + 1), *draw.pick(&OCTETS));
    match draw.below(5) {
        0 => packet.insert(at, octet),
        1 => packet.truncate(at),
        2 => packet.push(octet),
        _ if at == packet.len() => {
            packet.pop();
        }
        3 => {
            packet.remove(at);
        }
        _ => packet[at] = octet,
    }
}

/// Data around the lengths at which a reader might stop, none, some or all of it escaped.
pub fn long(seed: u64, mut each: impl FnMut(u8, &[u8])) {
    let mut draw = Rng::new(seed);
    for length in [255, 256, 257, 1023, 1024, 1025, 4095, 4096, 4097, 65_535, 65_536, 131_074] {
        for octets in [vec![0x41; length], draw.octets(length), vec![FEND; length], vec![FESC; length]] {
            each(draw.below(PORTS.into()) as u8, &octets);
        }
    }
}
