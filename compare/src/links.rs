//! A link between two stations, followed through a recording (document 02, M-112): what `ax25_link_offer` owes, in that paper's words, of what
//! the Rust reads of each frame. And recordings, and records that no call made. All of it is of the short mode.

use crate::check;
use crate::domain;
use crate::flat::*;
use crate::inputs;
use crate::oracle;
use crate::pairs;
use crate::port::Link;
use crate::records;
use crate::relays;
use crate::rng::Rng;

/// The refusals that come before the frame is looked at, in their order, and what each is about.
pub const REFUSALS: [(u32, &str); 4] = [(22, "a station not encodable"), (72, "equal stations"), (73, "an unsound record"), (71, "a full record")];

/// So many frames are offered to a record.
pub const MOST: u32 = 65_535;

/// The states. The asker is the first of the two stations or the second.
pub const IDLE: u32 = 0;
pub const ASKED_BY: [u32; 2] = [1, 2];
pub const UP: u32 = 3;

/// Sequence numbers are modulo 8.
pub const NUMBERS: u32 = 8;

/// What an I frame between the two is: the record counts each, in this order.
#[derive(Clone, Copy, PartialEq, Debug)]
pub enum Verdict {
    InOrder,
    Repeated,
    Gap,
    Outside,
}

/// By the names of the record's fields.
pub const VERDICTS: [(Verdict, &str); 4] =
    [(Verdict::InOrder, "in_order"), (Verdict::Repeated, "repeated"), (Verdict::Gap, "gaps"), (Verdict::Outside, "outside")];

/// What a frame is read as, or the number by which decoding refuses it.
pub type Read = Result<Flat, u32>;

pub fn read(frame: &[u8]) -> Read {
    check::decoded(frame).map(|read| oracle::record(frame, &read))
}

/// Zeros with the two stations filled in.
pub fn fresh(stations: [FlatAddress; 2]) -> Link {
    Link { stations, state: IDLE, expected: [0; 2], moved: [0; 2], counts: [0; 4], offered: 0 }
}

/// The four counts together, which may have more than 32 bits.
pub fn sum(link: &Link) -> u64 {
    link.counts.iter().map(|&count| u64::from(count)).sum()
}

/// Whether one of these refusals holds of a record, whatever else does.
pub fn holds(number: u32, link: &Link) -> bool {
    let [a, b] = &link.stations;
    match number {
        22 => !domain::encodable(a) || !domain::encodable(b),
        72 => domain::same_station(a, b),
        73 => sum(link) > link.offered.into() || link.expected.iter().any(|&expected| expected >= NUMBERS),
        _ => link.offered >= MOST,
    }
}

/// Source and destination of a frame.
pub fn ends(record: &Flat) -> [FlatAddress; 2] {
    [SOURCE, DESTINATION].map(|at| address_at(record, at))
}

/// Which of the two stations sent a frame to the other.
pub fn sender(link: &Link, record: &Flat) -> Option<usize> {
    let [source, destination] = ends(record);
    (0..2).find(|&from| domain::same_station(&link.stations[from], &source) && domain::same_station(&link.stations[1 - from], &destination))
}

/// The number that is owed where a record is offered a frame, and the record that is then left.
pub fn offered(link: &Link, read: &Read) -> (u32, Link) {
    if let Some((number, _)) = REFUSALS.into_iter().find(|&(number, _)| holds(number, link)) {
        return (number, *link);
    }
    let mut left = Link { offered: link.offered + 1, ..*link };
    let number = match read {
        Ok(record) => {
            if let Some(from) = sender(link, record) {
                take(&mut left, from, record);
            }
            0
        }
        Err(number) => *number,
    };
    #[cfg(feature = "faults")]
    crate::faults::miscounted(&mut left, link);
    (number, left)
}

/// What a frame from one of the two to the other does. A state over 3 is none of those that are named, and so is idle.
fn take(link: &mut Link, from: usize, record: &Flat) {
    match record[KIND] {
        SABM => link.state = ASKED_BY[from],
        UA if link.state == ASKED_BY[1 - from] => *link = Link { state: UP, expected: [0; 2], moved: [0; 2], ..*link },
        DISC | DM | SABME => link.state = IDLE,
        I => {
            let verdict = verdict(link, from, record[SEND].into());
            link.counts[verdict as usize] += 1;
            if verdict == Verdict::InOrder {
                link.expected[from] = (link.expected[from] + 1) % NUMBERS;
                link.moved[from] = 1;
            }
        }
        _ => {}
    }
}

fn verdict(link: &Link, from: usize, number: u32) -> Verdict {
    if link.state != UP {
        Verdict::Outside
    } else if number == link.expected[from] {
        Verdict::InOrder
    } else if link.moved[from] != 0 && is_last(number, link.expected[from]) {
        Verdict::Repeated
    } else {
        Verdict::Gap
    }
}

/// Whether a number is one less than the one that is expected.
pub fn is_last(number: u32, expected: u32) -> bool {
    (number + 1) % NUMBERS == expected
}

/// The most links that are followed through one capture.
pub const FOLLOWED: usize = 16;

/// Two different stations with an I frame between them, and how many there are.
pub struct Pair {
    pub stations: [FlatAddress; 2],
    pub count: u64,
}

/// The pairs of a capture, in the order in which they are met, counted from the frames that would be offered to one record. I frames of more
/// pairs than are followed, and of a station to itself, are counted together.
#[derive(Default)]
pub struct Pairs {
    pub pairs: Vec<Pair>,
    pub not_followed: u64,
}

impl Pairs {
    pub fn of(frames: impl Iterator<Item = Vec<u8>>) -> Pairs {
        let mut pairs = Pairs::default();
        let accepted = frames.take(MOST as usize).filter_map(|frame| read(&frame).ok());
        accepted.filter(|record| record[KIND] == I).for_each(|record| pairs.count(ends(&record)));
        pairs
    }

    fn count(&mut self, [source, destination]: [FlatAddress; 2]) {
        let is_among = |stations: &[FlatAddress; 2], end: &FlatAddress| stations.iter().any(|station| domain::same_station(station, end));
        let is_equal = domain::same_station(&source, &destination);
        let is_of = |pair: &Pair| !is_equal && is_among(&pair.stations, &source) && is_among(&pair.stations, &destination);
        match self.pairs.iter().position(is_of) {
            Some(at) => self.pairs[at].count += 1,
            None if self.pairs.len() < FOLLOWED && !is_equal => self.pairs.push(Pair { stations: [source, destination], count: 1 }),
            None => self.not_followed += 1,
        }
    }
}

/// The numbers of a record that mean something, and others.
const STATES: [u32; 9] = [IDLE, ASKED_BY[0], ASKED_BY[1], UP, 4, 7, 255, 259, u32::MAX];
const MOVED: [u32; 6] = [0, 1, 2, 256, 1 << 31, u32::MAX];

/// A station that is almost this one: its SSID or one bit of its callsign is another.
fn almost(station: FlatAddress, draw: &mut Rng) -> FlatAddress {
    if draw.chance(2) { relays::other_ssid(station, draw) } else { relays::other_callsign(station, draw) }
}

/// A station with any reserved bits.
fn with_any_reserved(mut station: FlatAddress, draw: &mut Rng) -> FlatAddress {
    station[RESERVED] = draw.within(0, ONES.into()) as u8;
    station
}

/// Two different stations, the second now and then almost the first. Neither starts with a null, which would have frames to it refused.
pub fn stations(draw: &mut Rng) -> [FlatAddress; 2] {
    loop {
        let one = records::any_address(draw);
        let other = if draw.chance(3) { almost(one, draw) } else { records::any_address(draw) };
        if one[0] != 0 && other[0] != 0 && !domain::same_station(&one, &other) {
            return [one, other];
        }
    }
}

/// A frame of this kind and N(S) from one station to another. All that plays no part is drawn: reserved bits, route, marks, P/F, N(R), PID
/// and info.
pub fn frame(ends: [FlatAddress; 2], kind: u8, send: u32, draw: &mut Rng) -> Vec<u8> {
    let count = if draw.chance(4) { draw.within(0, REPEATERS) } else { 0 };
    let mut record = records::marked(draw, kind, count);
    record[MARK] = *draw.pick(&[COMMAND, RESPONSE, ABSENT]);
    record[SEND] = send as u8;
    for (at, station) in [SOURCE, DESTINATION].into_iter().zip(ends) {
        records::put(&mut record, at, with_any_reserved(station, draw));
    }
    pairs::spelled(&record, &records::seeded_info(draw, kind))
}

/// A record that some calls may have left, with this state, and these numbers and memories of one direction.
fn sound(stations: [FlatAddress; 2], state: u32, from: usize, expected: u32, moved: u32, draw: &mut Rng) -> Link {
    let mut link = Link { state, ..fresh(stations) };
    link.expected = [draw.below(8) as u32, draw.below(8) as u32];
    link.moved = [draw.below(2) as u32, draw.below(2) as u32];
    link.expected[from] = expected;
    link.moved[from] = moved;
    link.counts = [0; 4].map(|_: u32| draw.below(1000) as u32);
    link.offered = sum(&link) as u32 + *draw.pick(&[0, 0, 1, 500]);
    link
}

/// Every state with every kind between any two of five stations: the two, one that is almost each of them, and another; and with every N(S)
/// beside every number that is expected and every memory, each way.
pub fn every(seed: u64, mut each: impl FnMut(&Link, &[u8])) {
    let mut draw = Rng::new(seed);
    for state in STATES {
        for kind in 0..UNKNOWN_CONTENT {
            let [a, b] = stations(&mut draw);
            let all = [a, b, almost(a, &mut draw), almost(b, &mut draw), records::any_address(&mut draw)];
            for source in all {
                for destination in all {
                    let from = draw.below(2);
                    let (expected, moved) = (draw.below(8) as u32, *draw.pick(&MOVED));
                    let link = sound([a, b], state, from, expected, moved, &mut draw);
                    each(&link, &frame([source, destination], kind, expected, &mut draw));
                }
            }
        }
        for from in 0..2 {
            let two = stations(&mut draw);
            for send in 0..NUMBERS {
                let offered = frame([two[from], two[1 - from]], I, send, &mut draw);
                for expected in 0..NUMBERS {
                    MOVED.iter().for_each(|&moved| each(&sound(two, state, from, expected, moved, &mut draw), &offered));
                }
            }
        }
    }
}

/// Records that no call made, each with a frame: zeros alone, and then every set of what may be wrong with the two, in turn, each for a cause
/// that is drawn.
pub fn unmade(seed: u64, count: usize, mut each: impl FnMut(&Link, &[u8])) {
    let mut draw = Rng::new(seed);
    each(&fresh([[0; ADDRESS]; 2]), &inputs::FRAME);
    for turn in 0..count {
        let is_wrong = |which: usize| turn >> which & 1 == 1;
        let (from, expected) = (draw.below(2), draw.below(8) as u32);
        let [mut a, mut b] = stations(&mut draw);
        let kind = if draw.chance(2) { I } else { draw.below(UNKNOWN_CONTENT.into()) as u8 };
        let mut offered = frame(if from == 0 { [a, b] } else { [b, a] }, kind, expected, &mut draw);
        if is_wrong(0) {
            b = with_any_reserved(a, &mut draw);
        }
        if is_wrong(1) {
            let spoilt = if draw.chance(2) { &mut a } else { &mut b };
            *spoilt = records::spoilt(*spoilt, &mut draw);
        }
        let (state, moved) = (*draw.pick(&STATES), *draw.pick(&MOVED));
        let mut link = sound([a, b], state, from, expected, moved, &mut draw);
        link.offered = *draw.pick(&[link.offered, MOST - 2, MOST - 1]);
        if is_wrong(2) {
            link.offered = *draw.pick(&[MOST, MOST + 1, 1 << 16 | 9999, 1 << 31, u32::MAX]);
        }
        if is_wrong(3) {
            overcount(&mut link, &mut draw);
        }
        if is_wrong(4) {
            link.expected[draw.below(2)] = *draw.pick(&[8, 9, 15, 255, 256, 1 << 31, u32::MAX]);
        }
        if is_wrong(5) {
            offered = refused(&offered, &mut draw);
        }
        each(&link, &offered);
    }
}

/// Has the four counts add up to more than was offered: by one, by more, or only where the sum has more than 32 bits.
fn overcount(link: &mut Link, draw: &mut Rng) {
    let [one, other] = [draw.below(4), draw.below(3)];
    let other = (one + 1 + other) % 4;
    match draw.below(4) {
        0 => {
            link.counts = [0; 4];
            link.counts[other] = link.offered / 2;
            link.counts[one] = (link.offered - link.offered / 2).saturating_add(1);
        }
        1 => link.counts[one] = link.offered.saturating_add(draw.within(2, 1000) as u32),
        2 => {
            link.counts = [0; 4];
            link.counts[one] = u32::MAX - draw.below(3) as u32;
            link.counts[other] = 3;
        }
        _ => link.counts = [1 << 30; 4],
    }
}

/// A frame that is most often refused: behind nulls, cut, damaged, with nine repeaters, without an end, or none at all.
fn refused(frame: &[u8], draw: &mut Rng) -> Vec<u8> {
    match draw.below(8) {
        0 => inputs::behind(draw.within(1, 9), frame),
        1 => frame[..draw.below(frame.len())].to_vec(),
        2 => inputs::with_repeaters(9, &[0x00, 0xF0]),
        3 => vec![0; draw.within(0, 20)],
        4 => {
            // Its content alone is refused: a U that is none, I without a PID, FRMR without its info.
            let field = domain::field(frame).map_or(0, |(_, end)| end + 1);
            [&frame[..field], &[*draw.pick(&[0x07, 0x00, 0x87])]].concat()
        }
        5 => inputs::any_frame(draw),
        _ => {
            let mut damaged = frame.to_vec();
            inputs::damage(draw, &mut damaged);
            damaged
        }
    }
}

/// The next frame of a recording whose frames so far have left this record: one that brings the link up, an I frame as it is expected, once
/// more or behind a lost one, or any other kind; now and then one of others, or one that is refused.
pub fn next(link: &Link, draw: &mut Rng) -> Vec<u8> {
    let from = draw.below(2);
    let two = [link.stations[from], link.stations[1 - from]];
    let kind = match (link.state, draw.below(20)) {
        (UP, 0..=13) | (_, 0..=2) => I,
        (UP, _) | (_, 3..=6) => draw.below(UNKNOWN_CONTENT.into()) as u8,
        (IDLE, _) => SABM,
        _ => UA,
    };
    let send = match draw.below(8) {
        0 => draw.below(8) as u32,
        1 | 2 => (link.expected[from] + NUMBERS - 1) % NUMBERS,
        _ => link.expected[from],
    };
    match draw.below(16) {
        0 => {
            let other = if draw.chance(2) { almost(two[0], draw) } else { records::any_address(draw) };
            let ends = *draw.pick(&[[two[0], other], [other, two[1]], [two[0], two[0]], [other, other]]);
            frame(ends, kind, send, draw)
        }
        1 => {
            let damaged = frame(two, kind, send, draw);
            refused(&damaged, draw)
        }
        _ => frame(two, kind, send, draw),
    }
}

/// A record with any numbers that is offered an input: most often between the stations that it has as source and destination.
pub fn around(input: &[u8], draw: &mut Rng) -> Link {
    let two = match read(input).map(|record| ends(&record)) {
        Ok([one, other]) if !draw.chance(8) => if draw.chance(2) { [one, other] } else { [other, one] },
        _ => stations(draw),
    };
    let (from, expected) = (draw.below(2), draw.below(8) as u32);
    let (state, moved) = (if draw.chance(3) { *draw.pick(&STATES) } else { UP }, *draw.pick(&MOVED));
    sound(two, state, from, expected, moved, draw)
}
