//! Frame records: those that the Rust can hold, and those that it can't.

use crate::domain;
use crate::flat::*;
use crate::rng::Rng;

pub type Each<'a> = &'a mut dyn FnMut(&[u8], &[u8]);

/// The record of a plain frame of this kind.
pub fn base(kind: u8) -> Flat {
    let mut record = [0; FLAT];
    put(&mut record, DESTINATION, station(b"GAUGE \0"));
    put(&mut record, SOURCE, station(b"BOX12 \x03"));
    for i in 0..REPEATERS {
        put(&mut record, ROUTE + ENTRY * i, NOCALL);
    }
    record[KIND] = kind;
    record[PID] = 13;
    record
}

pub fn put(record: &mut Flat, at: usize, address: FlatAddress) {
    record[at..at + ADDRESS].copy_from_slice(&address);
}

fn info_for(kind: u8) -> &'static [u8] {
    if has_info(kind) { b"info" } else { b"" }
}

/// Every kind with P/F and mark, and every octet as each sequence number.
pub fn sequence_numbers(each: Each) {
    for kind in 0..=UNKNOWN_CONTENT {
        for mark in [COMMAND, RESPONSE, ABSENT] {
            for poll in [0, 1] {
                let mut record = base(kind);
                record[MARK] = mark;
                record[POLL] = poll;
                for number in 0..=255 {
                    record[RECEIVE] = number;
                    record[SEND] = 255 - number;
                    each(&record, info_for(kind));
                    record[SEND] = 0;
                    each(&record, b"");
                }
            }
        }
    }
}

/// Every case of the PID, `Layer3Impl` and `Unknown` with every octet, in I and UI, with no info and some.
pub fn pids(each: Each) {
    for kind in [I, UI] {
        for info in [&b""[..], b"x", b"info"] {
            for case in 0..=PID_UNKNOWN {
                each(&with_pid(kind, case, 0), info);
            }
            for octet in 0..=255 {
                each(&with_pid(kind, PID_LAYER_3, octet), info);
                each(&with_pid(kind, PID_UNKNOWN, octet), info);
            }
        }
    }
}

/// The record of a plain frame of this kind, but for its PID.
pub fn with_pid(kind: u8, case: u8, octet: u8) -> Flat {
    let mut record = base(kind);
    record[PID] = case;
    record[PID_OCTET] = octet;
    record
}

/// FRMR with each combination of its flags, and every rejected control octet.
pub fn frmr_fields(each: Each) {
    for bits in 0..64_u8 {
        for rejected in 0..=255 {
            let mut record = base(FRMR);
            for (i, at) in [POLL, Z, Y, X, W, REJECTED_RESPONSE].into_iter().enumerate() {
                record[at] = bits >> i & 1;
            }
            record[REJECTED_CONTROL] = rejected;
            record[RECEIVE] = rejected;
            record[SEND] = bits;
            each(&record, b"");
        }
    }
}

/// Every way to mark none to eight repeaters, in each kind.
pub fn routes(each: Each) {
    for kind in 0..=UNKNOWN_CONTENT {
        for count in 0..=REPEATERS {
            for marks in 0..1_usize << count {
                let mut record = base(kind);
                record[COUNT] = count as u8;
                for i in 0..count {
                    put(&mut record, ROUTE + ENTRY * i, station(&[b'R', b'0' + i as u8, b' ', b' ', b' ', b' ', 15 - i as u8]));
                    record[ROUTE + ENTRY * i + ADDRESS] = (marks >> i & 1) as u8;
                }
                each(&record, info_for(kind));
            }
        }
    }
}

/// Every way to mark the eight places, in use or not, with every count.
pub fn marks(each: Each) {
    for count in 0..=255 {
        for marks in 0..=255_u8 {
            let mut record = base(UI);
            record[COUNT] = count;
            for i in 0..REPEATERS {
                record[ROUTE + ENTRY * i + ADDRESS] = marks >> i & 1;
            }
            each(&record, b"");
        }
    }
}

/// The twelve octets of content alone: every sequence number and PID, FRMR's fields, records cut short, seeded ones, and info beside a
/// kind that has none.
pub fn contents(seed: u64, count: usize, each: Each) {
    let mut cut_out = |record: &[u8], info: &[u8]| each(&record[KIND.min(record.len())..], info);
    sequence_numbers(&mut |record, info| {
        if record[MARK] == COMMAND {
            cut_out(record, info);
        }
    });
    pids(&mut cut_out);
    frmr_fields(&mut cut_out);
    cut(seed, &mut cut_out);
    holdable(seed, count, &mut cut_out);
    needless_info(&mut cut_out);
}

/// The first octet that an address can't hold at a place of it: a character, the SSID, the reserved bits.
fn limit(place: usize) -> u8 {
    match place {
        SSID => 16,
        RESERVED => ONES + 1,
        _ => 128,
    }
}

/// Every seven-bit character at each place of each address in use, every SSID, and every setting of the reserved bits.
pub fn characters(each: Each) {
    for count in [0, 1, REPEATERS] {
        let mut record = base(UI);
        record[COUNT] = count as u8;
        for address in places_of(count) {
            for place in 0..ADDRESS {
                let mut changed = record;
                for octet in 0..limit(place) {
                    changed[address + place] = octet;
                    each(&changed, b"info");
                }
            }
            put(&mut record, address, blank(7));
            each(&record, b"");
            put(&mut record, address, [0; ADDRESS]);
            each(&record, b"");
        }
    }
}

/// Every number as the reserved bits of each address, in use or not, with none to eight repeaters.
pub fn reserved_bits(each: Each) {
    for count in 0..=REPEATERS {
        for address in places_of(REPEATERS) {
            for number in 0..=255 {
                each(&with_reserved(count, address, number), b"info");
            }
        }
    }
}

/// A plain record with so many repeaters, but for the reserved bits of the address that stands here.
pub fn with_reserved(count: usize, address: usize, number: u8) -> Flat {
    let mut record = base(UI);
    record[COUNT] = count as u8;
    record[address + RESERVED] = number;
    record
}

/// Records cut short at every place, octets past the end counting as 0, and longer ones. All their fields are in use.
pub fn cut(seed: u64, each: Each) {
    let mut rng = Rng::new(seed);
    for kind in 0..=UNKNOWN_CONTENT {
        for _ in 0..8 {
            let mut record = seeded(&mut rng);
            record[KIND] = kind;
            for flag in [POLL, Z, Y, X, W, REJECTED_RESPONSE] {
                record[flag] = 1;
            }
            for address in [DESTINATION, SOURCE] {
                record[address + SSID] = rng.within(1, 15) as u8;
                record[address + RESERVED] = rng.within(1, ONES.into()) as u8;
            }
            let longer = [&record[..], &[0xFF; 9]].concat();
            for length in 0..=longer.len() {
                each(&longer[..length], b"");
            }
        }
    }
}

/// Records that the Rust can hold, whatever stands in unused places, fields that the kind lacks, and flags.
pub fn holdable(seed: u64, count: usize, each: Each) {
    let mut rng = Rng::new(seed);
    for _ in 0..count {
        let record = seeded(&mut rng);
        let info = seeded_info(&mut rng, record[KIND]);
        each(&record, &info);
    }
}

/// Info beside a kind that has none, P/F both ways.
fn needless_info(each: Each) {
    for kind in RR..=FRMR {
        for length in [1, 2, 300] {
            for poll in [0, 1] {
                let mut record = base(kind);
                record[POLL] = poll;
                each(&record, &vec![0x55; length]);
            }
        }
    }
}

/// Records that break one rule: info where there is none, every count over 8, every octet that an address can't hold.
pub fn unholdable(each: Each) {
    needless_info(each);
    for repeaters in REPEATERS + 1..=255 {
        let mut record = base(UI);
        record[COUNT] = repeaters as u8;
        each(&record, b"");
    }
    for at in DESTINATION..ROUTE {
        for octet in limit(at % ADDRESS)..=255 {
            let mut record = base(RR);
            record[at] = octet;
            each(&record, b"");
        }
    }
}

/// Records that break one rule, or several.
pub fn seeded_unholdable(seed: u64, count: usize, each: Each) {
    let mut rng = Rng::new(seed);
    for _ in 0..count {
        let mut record = seeded(&mut rng);
        let mut info = seeded_info(&mut rng, record[KIND]);
        let rules = rng.within(1, 15);
        if rules & 8 != 0 {
            record[KIND] = *rng.pick(&[I, UI]);
            record[PID] = PID_LAYER_3;
            record[PID_OCTET] = record[PID_OCTET] & 0xCF | *rng.pick(&[0x00, 0x30]);
        }
        if rules & 1 != 0 {
            record[COUNT] = rng.within(REPEATERS + 1, 255) as u8;
        }
        if rules & 2 != 0 {
            spoil(&mut rng, &mut record);
        }
        if rules & 4 != 0 {
            record[KIND] = rng.within(RR.into(), FRMR.into()) as u8;
            let length = rng.within(1, 9);
            info = rng.octets(length);
        }
        each(&record, &info);
    }
}

/// Spoils one address in use.
fn spoil(rng: &mut Rng, record: &mut Flat) {
    let addresses: Vec<usize> = places(record).collect();
    let at = *rng.pick(&addresses);
    let spoilt = spoilt(address_at(record, at), rng);
    put(record, at, spoilt);
}

/// An address with an octet that keeps it from being written.
pub fn spoilt(mut address: FlatAddress, rng: &mut Rng) -> FlatAddress {
    let place = rng.below(ADDRESS);
    address[place] = rng.within(limit(place).into(), 255) as u8;
    address
}

fn seeded(rng: &mut Rng) -> Flat {
    let mut record = [0; FLAT];
    record.copy_from_slice(&rng.octets(FLAT));
    record[COUNT] = rng.within(0, REPEATERS) as u8;
    if !rng.chance(8) {
        record[KIND] = rng.within(0, UNKNOWN_CONTENT.into()) as u8;
        record[MARK] = rng.within(0, 2) as u8;
        record[PID] = rng.within(0, 15) as u8;
        for flag in [POLL, Z, Y, X, W, REJECTED_RESPONSE] {
            record[flag] &= 1;
        }
    }
    let count = usize::from(record[COUNT]);
    for address in places_of(count) {
        put(&mut record, address, any_address(rng));
    }
    for i in 0..REPEATERS {
        record[ROUTE + ENTRY * i + ADDRESS] = *rng.pick(&[0, 0, 1, 1, 2, 0x80, 0xFF]);
    }
    settle_octet(&mut record);
    record
}

/// An octet outside the class of a layer 3 identifier becomes one of it.
fn settle_octet(record: &mut Flat) {
    if domain::is_outside(record) {
        // Bits 5 and 4 are equal outside the class.
        record[PID_OCTET] ^= 0x10;
    }
}

/// A record of this kind with so many repeaters, marked as Command or as Response, whose destination does not start with character 0: what
/// is written of it is canonical.
pub fn marked(rng: &mut Rng, kind: u8, count: usize) -> Flat {
    let mut record = seeded(rng);
    record[KIND] = kind;
    record[COUNT] = count as u8;
    record[MARK] = *rng.pick(&[COMMAND, RESPONSE]);
    for address in places_of(count) {
        put(&mut record, address, any_address(rng));
    }
    if record[DESTINATION] == 0 {
        // A single bit: without it the input starts with a null, and is refused.
        record[DESTINATION] = 1 << rng.below(7);
    }
    settle_octet(&mut record);
    record
}

/// An address that can be written: usual, padded, any seven-bit characters, empty, zeros.
pub fn any_address(rng: &mut Rng) -> FlatAddress {
    const USUAL: &[u8] = b"ABCDEFGHIJKLMNOPQRSTUVWXYZ0123456789";
    let mut address = blank(0);
    let used = rng.within(0, 6);
    let style = rng.below(6);
    for character in &mut address[..used] {
        *character = match style {
            0 => rng.octet() & 0x7F,
            1 => *rng.pick(&[0x00, b' ', 0x7F, b'a', b'-', b'A']),
            _ => *rng.pick(USUAL),
        };
    }
    if style == 2 {
        address[..SSID].iter_mut().for_each(|c| *c = if *c == b' ' { 0 } else { *c });
    }
    address[SSID] = rng.within(0, 15) as u8;
    address[RESERVED] = rng.within(0, ONES.into()) as u8;
    address
}

pub fn seeded_info(rng: &mut Rng, kind: u8) -> Vec<u8> {
    if !has_info(kind) {
        return Vec::new();
    }
    let length = match rng.below(12) {
        0 => 0,
        1 => rng.within(0, 300),
        _ => rng.within(0, 12),
    };
    rng.octets(length)
}
