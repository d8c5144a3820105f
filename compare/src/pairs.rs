//! A canonical input and others beside it (document 02, M-107): canonical frames of every sort, and the ways to make another input of one.

use crate::check::{Both, Shown};
use crate::domain;
use crate::flat::*;
use crate::inputs;
use crate::lent::LONGER;
use crate::oracle;
use crate::port::Port;
use crate::records;
use crate::rng::Rng;
use std::collections::hash_map::{DefaultHasher, HashMap};
use std::hash::{Hash, Hasher};

/// How the other input was made.
#[derive(Clone, Copy, PartialEq, Debug)]
pub enum Way {
    /// One bit changed.
    Bit,
    /// Some of the excepted bits set, or none.
    Excepted,
    /// It came off the air, and the first is what it is re-encoded as.
    Reencoded,
    /// A few bits or octets changed, or octets or groups exchanged.
    Damaged,
    /// The port wrote it, from the record of the first or from almost that record.
    Written,
    /// As many octets added in one place as taken away in another.
    Moved,
    /// Reserved bits, the layer 3 octet, marks or an SSID given anew.
    Field,
    /// Leftover octets or a tail added, which leave frame and info as they are; or nulls, behind which it is refused.
    Longer,
    /// As it came: with the frame and info of another of a capture, or given by hand.
    Met,
}

/// How two inputs stand to one another.
#[derive(Clone, Copy, PartialEq, Debug)]
pub enum Outcome {
    /// The same length, frame and info, and the same octets.
    Same,
    /// The same but for excepted bits.
    Unseen,
    Refused,
    /// Another frame.
    Frame,
    /// The same frame with other info.
    Info,
    /// Another length with the same frame and info.
    Length,
    /// Another length, and refused or not the same.
    Neither,
}

pub const OUTCOMES: [(Outcome, &str); 7] = [
    (Outcome::Same, "the same octets"),
    (Outcome::Unseen, "the same but for excepted bits"),
    (Outcome::Refused, "refused"),
    (Outcome::Frame, "another frame"),
    (Outcome::Info, "other info"),
    (Outcome::Length, "another length with the same frame and info"),
    (Outcome::Neither, "another length and not the same"),
];

/// Each way with how it has to come out at least once in a run of `test`; the other outcomes it need not have.
pub const WAYS: [(Way, &str, &[Outcome]); 9] = [
    (Way::Bit, "one bit changed", &[Outcome::Unseen, Outcome::Refused, Outcome::Frame, Outcome::Info]),
    (Way::Excepted, "excepted bits set", &[Outcome::Same, Outcome::Unseen]),
    (Way::Reencoded, "re-encoded as that", &[Outcome::Same, Outcome::Unseen, Outcome::Frame, Outcome::Length, Outcome::Neither]),
    (Way::Damaged, "damaged", &[Outcome::Same, Outcome::Unseen, Outcome::Refused, Outcome::Frame, Outcome::Info]),
    (Way::Written, "written by the port", &[Outcome::Same, Outcome::Frame, Outcome::Info]),
    (Way::Moved, "octets moved", &[Outcome::Same, Outcome::Refused, Outcome::Frame, Outcome::Info]),
    (Way::Field, "one field given anew", &[Outcome::Same, Outcome::Frame]),
    (Way::Longer, "made longer", &[Outcome::Length, Outcome::Neither]),
    (Way::Met, "met with the same frame and info", &[]),
];

/// A canonical input, and others.
pub type Each<'a> = &'a mut dyn FnMut(&[u8], &mut dyn Iterator<Item = (Way, Vec<u8>)>);

/// The accepted frames of captures by what the port shows of them, as the radio desk compares them: of those with one frame and info the
/// first, or a canonical one. There may be millions, so what is remembered is where a frame stands, by a hash of what is shown of it.
pub struct Desk {
    places: HashMap<u64, u64>,
    /// How many are remembered at most.
    most: usize,
    /// How many had the frame and info of an earlier one.
    pub again: u64,
    /// How many of these pairs had no canonical one.
    pub neither: u64,
    /// How many had not, and came when no more were remembered, so that no later one is put beside them.
    pub not_remembered: u64,
}

fn hash(shown: &Shown) -> u64 {
    let mut hasher = DefaultHasher::new();
    shown.hash(&mut hasher);
    hasher.finish()
}

impl Desk {
    /// So many the table holds before it would take over 60 MB.
    pub const MOST: usize = 1_800_000;

    pub fn new(most: usize) -> Desk {
        Desk { places: HashMap::new(), most, again: 0, neither: 0, not_remembered: 0 }
    }

    /// Where an earlier frame stands that seems to have the frame and info of this one, which stands here; if there is none, this one is
    /// remembered.
    pub fn earlier(&mut self, frame: &Both, at: u64) -> Option<u64> {
        let number = hash(frame.port.as_ref().ok()?);
        let earlier = self.places.get(&number).copied();
        if earlier.is_none() && self.places.len() < self.most {
            self.places.insert(number, at);
        } else if earlier.is_none() {
            self.not_remembered += 1;
        }
        earlier
    }

    /// Whether the two do have the same frame and info. Two others may have one hash; the later one is then not remembered.
    pub fn is_again(&mut self, earlier: &Both, frame: &Both, at: u64) -> bool {
        let again = earlier.agrees(frame);
        self.again += u64::from(again);
        self.not_remembered += u64::from(!again);
        if let (true, true, Ok(shown)) = (again, frame.canonical, &frame.port) {
            self.places.insert(hash(shown), at);
        }
        again
    }
}

/// Canonical frames with each of their bits changed alone: none to eight repeaters, both marks, each kind, in I and UI every PID and info
/// or none. From frame to frame each group has another setting of its reserved bits.
pub fn every_bit(seed: u64, each: Each) {
    let mut rng = Rng::new(seed);
    let mut turn = 0;
    for count in 0..=REPEATERS {
        for mark in [COMMAND, RESPONSE] {
            for (kind, [pid, octet], info) in contents(&mut rng) {
                let mut record = records::marked(&mut rng, kind, count);
                record[MARK] = mark;
                record[PID] = pid;
                record[PID_OCTET] = octet;
                for (group, at) in places_of(count).enumerate() {
                    record[at + RESERVED] = ((turn + group) % 4) as u8;
                }
                turn += 1;
                let frame = spelled(&record, &info);
                each(&frame, &mut inputs::every_bit(&frame).map(|input| (Way::Bit, input)));
            }
        }
    }
}

/// Each kind, those without info several times, for their numbers differ; XID and TEST, and I and UI with each PID, with info and none.
fn contents(rng: &mut Rng) -> Vec<(u8, [u8; 2], Vec<u8>)> {
    let mut all: Vec<(u8, [u8; 2], Vec<u8>)> = (RR..=FRMR).flat_map(|kind| vec![(kind, [0, 0], Vec::new()); 3]).collect();
    for kind in [I, UI] {
        for pid in identifiers(rng) {
            let length = rng.within(1, 4);
            all.extend([Vec::new(), rng.octets(length)].map(|info| (kind, pid, info)));
        }
    }
    for kind in [XID, TEST] {
        let length = rng.within(1, 4);
        all.extend([Vec::new(), rng.octets(length)].map(|info| (kind, [0, 0], info)));
    }
    all
}

/// A case of the identifier and the octet beside it: layer 3 with both patterns of its class, each name, and an unknown octet.
fn identifiers(rng: &mut Rng) -> Vec<[u8; 2]> {
    let layer_3 = [0x10, 0x20].map(|bits| [PID_LAYER_3, rng.octet() & 0xCF | bits]);
    let unknown = [PID_UNKNOWN, *rng.pick(&[0x00, 0x02, 0x3F, 0x80, 0xB3, 0xFE])];
    let named = (PID_LAYER_3 + 1..PID_UNKNOWN).map(|pid| [pid, 0]);
    layer_3.into_iter().chain(named).chain([unknown]).collect()
}

/// What is owed to be written of a record.
pub fn spelled(record: &Flat, info: &[u8]) -> Vec<u8> {
    oracle::written(&to_frame(record, info), record).octets
}

/// Seeded canonical frames, each with others made of it in each way; and as many inputs off the air, each beside what it is re-encoded as.
pub fn seeded(seed: u64, count: usize, each: Each) {
    let (mut rng, mut port) = (Rng::new(seed), Port::new());
    for _ in 0..count {
        let kind = if rng.chance(4) { FRMR } else { rng.within(I.into(), TEST.into()) as u8 };
        let repeaters = rng.within(0, REPEATERS);
        let record = records::marked(&mut rng, kind, repeaters);
        let mut info = records::seeded_info(&mut rng, kind);
        if rng.chance(4) {
            // Where zeros at the end are taken away, info's length alone shows it.
            info.iter_mut().rev().take(3).for_each(|octet| *octet = 0);
        }
        let frame = spelled(&record, &info);
        let mut others = vec![
            (Way::Damaged, damaged(&mut rng, &frame)),
            (Way::Moved, moved(&mut rng, &frame)),
            (Way::Field, with_field(&mut rng, &frame)),
            (Way::Longer, longer(&mut rng, &frame, (RR..=UA).contains(&kind))),
        ];
        if kind == FRMR {
            others.push((Way::Excepted, with_excepted(&mut rng, &frame)));
        }
        let (almost, other) = almost(&mut rng, &record, &info);
        let records = [(&record, &info), (&almost, &other)];
        others.extend(records.iter().filter_map(|(record, info)| Some((Way::Written, written(&mut port, record, info)?))));
        each(&frame, &mut others.into_iter());
        beside_again(&mut port, &inputs::any_frame(&mut rng), each);
    }
}

/// An input beside what it is re-encoded as, unless it is refused.
pub fn beside_again(port: &mut Port, input: &[u8], each: Each) {
    if let Some(frame) = reencoded(port, input) {
        each(&frame, &mut std::iter::once((Way::Reencoded, input.to_vec())));
    }
}

/// What the port writes of a record, unless it refuses to.
fn written(port: &mut Port, record: &Flat, info: &[u8]) -> Option<Vec<u8>> {
    let (number, length) = port.encode(record, info, FLAT + info.len());
    port.output().get(..length).filter(|_| number == 0).map(<[u8]>::to_vec)
}

/// What the port re-encodes an input as, unless it refuses to.
fn reencoded(port: &mut Port, input: &[u8]) -> Option<Vec<u8>> {
    let length = port.reencoded_length(input);
    let number = port.reencode(input, length.min(input.len() + LONGER));
    (number == 0).then(|| port.output().to_vec())
}

/// FRMR with any of the excepted bits set.
fn with_excepted(rng: &mut Rng, frame: &[u8]) -> Vec<u8> {
    let mut octets = frame.to_vec();
    for (at, bits) in domain::excepted(frame) {
        octets[at] |= rng.octet() & bits;
    }
    octets
}

/// Where the address field ends.
fn end_of(frame: &[u8]) -> usize {
    domain::field(frame).expect("an address field").1
}

fn damaged(rng: &mut Rng, frame: &[u8]) -> Vec<u8> {
    let mut octets = frame.to_vec();
    let mut any = || rng.below(frame.len());
    let (one, other) = (any(), any());
    match rng.below(6) {
        0 => return inputs::flipped(frame, &[8 * one + rng.below(8), 8 * other + rng.below(8)]),
        1 => octets[one] = rng.octet(),
        2 => [one, other].iter().for_each(|&at| octets[at] = rng.octet()),
        3 => octets.swap(one, other),
        4 => exchange_groups(rng, &mut octets),
        _ => {
            // Content is short, so its bits are hit often.
            let bit = rng.within(8 * (end_of(frame) + 1), 8 * frame.len() - 1);
            return inputs::flipped(frame, &[bit]);
        }
    }
    octets
}

/// Two groups exchanged, half of the time without their end bits.
fn exchange_groups(rng: &mut Rng, octets: &mut [u8]) {
    let (end, groups) = (end_of(octets), 2 + domain::repeaters(octets));
    let (one, other) = (GROUP * rng.below(groups), GROUP * rng.below(groups));
    (0..GROUP).for_each(|i| octets.swap(one + i, other + i));
    if rng.chance(2) {
        [one, other].iter().for_each(|&at| octets[at + GROUP - 1] &= 0xFE);
        octets[end] |= 1;
    }
}

/// Octets taken away, the first one, the last group or the last ones of content; and as many added as nulls, as leftover octets or as a
/// tail, which may be those that were taken away.
fn moved(rng: &mut Rng, frame: &[u8]) -> Vec<u8> {
    let mut octets = frame.to_vec();
    let end = end_of(frame);
    let taken: Vec<u8> = match rng.below(6) {
        0 => octets.drain(..1).collect(),
        1 => {
            octets[end - GROUP] |= 1;
            octets.drain(end + 1 - GROUP..=end).collect()
        }
        _ => octets.split_off(frame.len() - rng.within(1, (frame.len() - end - 1).min(3))),
    };
    match rng.below(4) {
        0 => octets = inputs::behind(taken.len(), &octets),
        1 => add_leftover(rng, &mut octets, taken.len()),
        2 => octets.extend(taken),
        _ => octets.extend(rng.octets(taken.len())),
    }
    octets
}

/// Octets behind the last group, which then is not the end.
fn add_leftover(rng: &mut Rng, octets: &mut Vec<u8>, count: usize) {
    let end = end_of(octets);
    octets[end] &= 0xFE;
    let mut leftover: Vec<u8> = rng.octets(count).iter().map(|octet| octet & 0xFE).collect();
    leftover[count - 1] |= 1;
    octets.splice(end + 1..end + 1, leftover);
}

/// One field given anew, which may be what it was: the reserved bits or the SSID of a group, a mark, or a layer 3 octet.
fn with_field(rng: &mut Rng, frame: &[u8]) -> Vec<u8> {
    let mut octets = frame.to_vec();
    let group = rng.below(2 + domain::repeaters(frame));
    let at = domain::seventh(0, group);
    match (rng.below(4), domain::layer_3_at(frame)) {
        (0, _) => octets[at] = domain::with_reserved(octets[at], rng.within(0, ONES.into()) as u8),
        (1, _) => octets[at] = octets[at] & 0xE1 | rng.octet() & 0x1E,
        (2, Some(pid)) => octets[pid] = rng.octet() & 0xCF | *rng.pick(&[0x10, 0x20]),
        // Of the first two marks one alone is set.
        _ if group < 2 => [0, 1].iter().for_each(|&group| octets[domain::seventh(0, group)] ^= 0x80),
        _ => octets[at] ^= 0x80,
    }
    octets
}

/// Nulls before the frame, octets left over in its address field, and behind a kind that ignores it a tail: one of these or several.
fn longer(rng: &mut Rng, frame: &[u8], has_tail: bool) -> Vec<u8> {
    let mut octets = frame.to_vec();
    let what = rng.within(1, if has_tail { 7 } else { 3 });
    if what & 2 != 0 {
        let count = rng.within(1, GROUP - 1);
        add_leftover(rng, &mut octets, count);
    }
    if what & 1 != 0 {
        octets = inputs::behind(rng.within(1, 9), &octets);
    }
    if what & 4 != 0 {
        let length = rng.within(1, 9);
        octets.extend(rng.octets(length));
    }
    octets
}

/// A record with what is no part of its frame given anew; half of the time with P/F, an SSID, reserved bits or an info octet changed too.
fn almost(rng: &mut Rng, record: &Flat, info: &[u8]) -> (Flat, Vec<u8>) {
    let (mut almost, mut info) = (*record, info.to_vec());
    almost[ROUTE + ENTRY * usize::from(record[COUNT])..COUNT].iter_mut().for_each(|octet| *octet = rng.octet());
    [RECEIVE, SEND].iter().for_each(|&at| almost[at] = almost[at] & 7 | rng.octet() & 0xF8);
    if !has_pid(record) {
        [PID, PID_OCTET].iter().for_each(|&at| almost[at] = rng.octet());
    }
    if record[KIND] != FRMR {
        almost[Z..].iter_mut().for_each(|octet| *octet = rng.octet());
    }
    let address = *rng.pick(&places(record).collect::<Vec<_>>());
    match (rng.below(8), info.first_mut()) {
        (0, _) => almost[POLL] = u8::from(almost[POLL] == 0),
        (1, _) => almost[address + SSID] ^= 1 << rng.below(4),
        (2, _) => almost[address + RESERVED] ^= rng.within(1, ONES.into()) as u8,
        (3, Some(octet)) => *octet ^= 1 << rng.below(8),
        _ => {}
    }
    (almost, info)
}
