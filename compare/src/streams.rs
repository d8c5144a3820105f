//! Streams of KISS packets, and the ways to cut them: packets of every sort, whole and damaged, noise before and between them, data
//! around the length that there is room for; and states to start from that no call made.

use crate::inputs::Each;
use crate::kiss::{self, FEND, FESC, LONGEST, PORTS};
use crate::packets::{self, OCTETS};
use crate::port::{State, FRESH};
use crate::rng::Rng;
use std::ops::Range;

/// The places of the pieces of a stream that is cut by these lengths, in turn and again from the first; not all of them are 0.
pub fn pieces(length: usize, cut: &[usize]) -> impl Iterator<Item = Range<usize>> + '_ {
    let mut at: usize = 0;
    cut.iter().cycle().map_while(move |piece| {
        let from = at;
        at = length.min(from.saturating_add(*piece));
        if from < length { Some(from..at) } else { None }
    })
}

/// A long stream is read in stretches of at least so many octets, each from the state on that the one before it left.
const STRETCH: usize = 1 << 20;

/// The stretches of a stream that comes in pieces: each ends behind a C0, but for the last, which ends where the stream does.
pub fn stretches<'a>(mut pieces: impl Iterator<Item = Vec<u8>> + 'a) -> impl Iterator<Item = Vec<u8>> + 'a {
    // What is held, and how many octets of it a C0 ends.
    let (mut held, mut closed, mut ended) = (Vec::new(), 0, false);
    std::iter::from_fn(move || {
        while !ended {
            let piece = match pieces.next() {
                Some(piece) => piece,
                None => {
                    ended = true;
                    return Some(std::mem::take(&mut held));
                }
            };
            closed = piece.iter().rposition(|&octet| octet == FEND).map_or(closed, |at| held.len() + at + 1);
            held.extend(piece);
            if held.len() > STRETCH && closed > 0 {
                let rest = held.split_off(closed);
                closed = 0;
                return Some(std::mem::replace(&mut held, rest));
            }
        }
        None
    })
}

/// Seeded lengths, some of them 0.
pub fn cut(draw: &mut Rng) -> Vec<usize> {
    let longest = *draw.pick(&[1, 3, 10, 60, 400]);
    cut_to(longest, draw)
}

pub fn cut_to(longest: usize, draw: &mut Rng) -> Vec<usize> {
    let mut cut: Vec<usize> = (0..draw.within(1, 20)).map(|_| draw.within(0, longest)).collect();
    cut.push(draw.within(1, longest));
    cut
}

/// One to eight things in a row, and before them nothing, or octets that no C0 has opened. Half of the streams end where it happens.
pub fn seeded(seed: u64, count: usize, each: Each) {
    let mut draw = Rng::new(seed);
    for _ in 0..count {
        let mut stream = if draw.chance(2) { noise(&mut draw) } else { Vec::new() };
        stream.retain(|&octet| octet != FEND);
        for _ in 0..draw.within(1, 8) {
            let next = thing(&mut draw);
            // A packet behind a C0 may share it.
            let shared = stream.last() == Some(&FEND) && next.first() == Some(&FEND) && draw.chance(2);
            stream.extend(&next[usize::from(shared)..]);
        }
        if draw.chance(2) {
            stream.truncate(draw.within(0, stream.len()));
        }
        each(&stream);
    }
}

fn noise(draw: &mut Rng) -> Vec<u8> {
    (0..draw.within(0, 8)).map(|_| *draw.pick(&OCTETS)).collect()
}

/// A packet that is given out, one of any type, a damaged one, noise, or C0 alone, once or more.
fn thing(draw: &mut Rng) -> Vec<u8> {
    match draw.below(8) {
        0 => kiss::packet(packets::kind(draw), &packets::data(draw)),
        1 => packets::damaged_one(draw),
        2 => noise(draw),
        3 => vec![FEND; draw.within(1, 3)],
        _ => kiss::packet((draw.below(PORTS.into()) << 4) as u8, &packets::data(draw)),
    }
}

/// Data around the length that there is room for, of which none, some, the last or all is escaped, and a packet behind it; each with a cut
/// that has single octets around the place where there is no more room.
pub fn long(seed: u64, mut each: impl FnMut(&[u8], Vec<usize>)) {
    let mut draw = Rng::new(seed);
    for length in LONGEST - 2..LONGEST + 4 {
        let mut last_escaped = vec![0x41; length];
        last_escaped[LONGEST - 3..].fill(FESC);
        for data in [vec![0x41; length], draw.octets(length), vec![FEND; length], last_escaped] {
            let packet = kiss::packet((draw.below(PORTS.into()) << 4) as u8, &data);
            let full = kiss::packet(0, &data[..length.min(LONGEST)]).len();
            let stream = [&packet[..packet.len() - 1], &kiss::packet(0x50, b"LEVEL")].concat();
            each(&stream, vec![full - 4, 1, 1, 1, 1, 1, 1, 1, 1, stream.len()]);
        }
    }
}

/// More packets to drop than are counted.
pub fn many_dropped() -> Vec<u8> {
    [FEND, 0x01].repeat(65_600)
}

/// A state that no call made: too long, of a port over 11, of an unknown phase, or all of these, with any count and any data.
pub fn unmade(draw: &mut Rng) -> State {
    let mut state = FRESH;
    state.data.copy_from_slice(&draw.octets(LONGEST));
    state.length = draw.within(0, LONGEST) as u16;
    state.port = draw.below(PORTS.into()) as u8;
    state.phase = draw.below(6) as u8;
    state.dropped = if draw.chance(2) { u16::MAX - draw.below(5) as u16 } else { draw.next() as u16 };
    let wrong = draw.below(4);
    if wrong == 0 || wrong == 3 {
        state.length = draw.within(LONGEST + 1, u16::MAX.into()) as u16;
    }
    if wrong == 1 || wrong == 3 {
        state.port = draw.within(PORTS.into(), 255) as u8;
    }
    if wrong == 2 || wrong == 3 {
        state.phase = draw.within(6, 255) as u8;
    }
    state
}
