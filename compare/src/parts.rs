//! Parts of one buffer, and what `ax25_captures` owes of each (document 02, M-111): what the single calls owe of the part, or 61 where it is
//! not inside. The inputs of a class come together in batches, and the frames of a capture in one buffer. All of it is of the short mode.

use crate::flat::{UI, UNKNOWN_CONTENT};
use crate::inputs;
use crate::port::{bare, CaptureRecord};
use crate::report::{self, SHORT};
use crate::rng::Rng;
use crate::show;

/// The number of a part that is not inside the buffer.
pub const NOT_INSIDE: u32 = 61;

/// Where a part starts, and how many octets it has.
#[derive(Clone, Copy, PartialEq, Debug)]
pub struct Part {
    pub start: usize,
    pub length: usize,
}

impl Part {
    /// The octets of a part that is inside: its end, formed without overflow, is at most the buffer's.
    pub fn of<'a>(&self, buffer: &'a [u8]) -> Option<&'a [u8]> {
        buffer.get(self.start..self.start.checked_add(self.length)?)
    }

    /// A record with this part that holds something else than it is to hold after a call, most of the time.
    fn unfilled(&self, draw: &mut Rng) -> CaptureRecord {
        let junk = match draw.below(4) {
            0 => 0,
            1 => u64::MAX,
            // An answer that another record may owe: accepted, canonical, some kind.
            2 => 1 << 32 | (draw.below(UNKNOWN_CONTENT.into()) as u64) << 48,
            _ => draw.next(),
        };
        self.filled(&Filled { number: junk as u32, canonical: (junk >> 32) as u16, kind: (junk >> 48) as u16 })
    }

    pub fn filled(&self, with: &Filled) -> CaptureRecord {
        CaptureRecord { start: self.start, length: self.length, number: with.number, canonical: with.canonical, kind: with.kind }
    }
}

/// What a call fills into a record.
#[derive(Clone, Copy, PartialEq, Debug)]
pub struct Filled {
    pub number: u32,
    pub canonical: u16,
    pub kind: u16,
}

impl Filled {
    pub fn accepted(canonical: bool, kind: u8) -> Filled {
        Filled { number: 0, canonical: canonical.into(), kind: kind.into() }
    }

    /// A refused part, and one that is not inside: not canonical, and with the default frame's kind.
    pub fn refused(number: u32) -> Filled {
        Filled { number, canonical: 0, kind: UI.into() }
    }
}

/// So many records fit a command.
const TOLD: usize = 1000;

/// One call: the buffer, and the parts with what each owes.
pub struct Call {
    pub buffer: Vec<u8>,
    pub parts: Vec<(Part, Filled)>,
}

impl Call {
    /// The records as they are lent.
    pub fn unfilled(&self, draw: &mut Rng) -> Vec<CaptureRecord> {
        self.parts.iter().map(|(part, _)| part.unfilled(draw)).collect()
    }

    /// The record that is owed here.
    pub fn owed(&self, at: usize) -> CaptureRecord {
        let (part, owed) = &self.parts[at];
        part.filled(owed)
    }

    /// Which of the records is meant, and its octets; or the whole list.
    pub fn words(&self, which: Option<usize>) -> String {
        let one = which.map(|at| {
            let (part, _) = self.parts[at];
            let octets = part.of(&self.buffer).map_or("not inside".to_string(), show::hex);
            format!("record {}, {} octets from {} on: {}; one of ", at + 1, part.length, part.start, octets)
        });
        let all = format!("{}{} records of a buffer of {} octets", one.unwrap_or_default(), self.parts.len(), self.buffer.len());
        // A short one stands in the command.
        if self.buffer.len() > SHORT && self.is_told() { format!("{}: {}", all, show::hex(&self.buffer)) } else { all }
    }

    /// The command that makes the call again, unless it has too many records for one.
    pub fn again(&self) -> Option<String> {
        let parts = self.parts.iter().map(|(part, _)| format!(" {},{}", part.start, part.length));
        self.is_told().then(|| report::again(&format!("compare buffer{}", parts.collect::<String>()), &self.buffer))
    }

    fn is_told(&self) -> bool {
        self.parts.len() <= TOLD
    }
}

/// The most inputs of a batch.
const MOST: usize = 40;
/// The most octets between two inputs, and before and behind all of them.
const BETWEEN: usize = 9;

/// Inputs that come together until enough of them are there for a call.
pub struct Batch {
    buffer: Vec<u8>,
    parts: Vec<(Part, Filled)>,
    enough: usize,
    draw: Rng,
}

impl Batch {
    pub fn new() -> Batch {
        Batch { buffer: Vec::new(), parts: Vec::new(), enough: 1, draw: Rng::new(111) }
    }

    /// Puts other octets behind what is there, or none.
    fn gap(&mut self) {
        let length = if self.draw.chance(2) { 0 } else { self.draw.within(1, BETWEEN) };
        (0..length).for_each(|_| self.buffer.push(self.draw.octet()));
    }

    pub fn add(&mut self, input: &[u8], owed: Filled) {
        self.gap();
        self.parts.push((Part { start: self.buffer.len(), length: input.len() }, owed));
        self.buffer.extend(input);
    }

    pub fn is_due(&self) -> bool {
        self.parts.len() >= self.enough || self.buffer.len() >= SHORT
    }

    /// How many inputs there are.
    pub fn len(&self) -> usize {
        self.parts.len()
    }

    /// The call, and now and then one before it with the same buffer and no record. One in six records is followed by another that has an
    /// earlier part again, is empty, or is not inside; and half of the lists are not in the order of the buffer.
    pub fn take(&mut self) -> Vec<Call> {
        self.gap();
        let (buffer, inputs) = (std::mem::take(&mut self.buffer), std::mem::take(&mut self.parts));
        let draw = &mut self.draw;
        self.enough = match draw.below(4) {
            0 => 1,
            1 => 2,
            _ => draw.within(3, MOST),
        };
        let mut parts = Vec::with_capacity(inputs.len() + 8);
        for input in inputs {
            parts.push(input);
            if draw.chance(6) {
                parts.push(match draw.below(6) {
                    0 | 1 => *draw.pick(&parts),
                    2 => (Part { start: *draw.pick(&[0, buffer.len() / 2, buffer.len()]), length: 0 }, Filled::refused(1)),
                    _ => (outside(buffer.len(), draw), Filled::refused(NOT_INSIDE)),
                });
            }
        }
        match draw.below(4) {
            0 => parts.reverse(),
            1 => shuffle(&mut parts, draw),
            _ => {}
        }
        let none = draw.chance(8).then(|| Call { buffer: buffer.clone(), parts: Vec::new() });
        none.into_iter().chain([Call { buffer, parts }]).collect()
    }
}

fn shuffle<T>(items: &mut [T], draw: &mut Rng) {
    for at in (1..items.len()).rev() {
        items.swap(at, draw.within(0, at));
    }
}

/// A part that is not inside a buffer of this length: it starts behind the end or goes beyond it, by one octet or by more, or the sum of
/// start and length has too many bits, and would be inside without them or would not.
fn outside(length: usize, draw: &mut Rng) -> Part {
    let inside = draw.within(0, length);
    let more = draw.within(1, 300);
    let (start, length) = match draw.below(8) {
        0 => (length + 1, 0),
        1 => (length + more, 0),
        2 => (inside, length - inside + 1),
        3 => (inside, length - inside + more),
        4 => (length + more, inside),
        // The wrapped sum is `inside`.
        5 => (usize::MAX - more + 1, more + inside),
        6 => (more + inside, usize::MAX - more + 1),
        _ => (usize::MAX - inside, usize::MAX - more),
    };
    Part { start, length }
}

/// Every part whose start and length are among these numbers.
pub fn every(numbers: impl IntoIterator<Item = usize>) -> Vec<Part> {
    let numbers: Vec<usize> = numbers.into_iter().collect();
    numbers.iter().flat_map(|&start| numbers.iter().map(move |&length| Part { start, length })).collect()
}

/// Numbers around the length of a buffer, half of the largest number, and that.
pub fn around(length: usize) -> Vec<usize> {
    const HALF: usize = usize::MAX / 2;
    let mut numbers = vec![0, 1, u32::MAX as usize, u32::MAX as usize + 1];
    numbers.extend((length.saturating_sub(1)..=length + 1).flat_map(|near| [near, HALF - near, HALF + 1 + near, usize::MAX - near]));
    numbers.extend((0..3).map(|less| usize::MAX - less));
    numbers
}

/// A frame put behind what is there.
pub fn laid(buffer: &mut Vec<u8>, frame: &[u8]) -> Part {
    let start = buffer.len();
    buffer.extend(frame);
    Part { start, length: frame.len() }
}

/// A few frames, some of them damaged, and parts of their buffer: the frames, frames with an octet more or less at either end, any others,
/// and some that are not inside.
pub fn seeded(draw: &mut Rng) -> (Vec<u8>, Vec<Part>) {
    let mut buffer = Vec::new();
    let frames: Vec<Part> = (0..draw.within(1, 6)).map(|_| laid(&mut buffer, &inputs::any_frame(draw))).collect();
    if draw.chance(3) {
        let at = draw.below(buffer.len());
        buffer[at] ^= 1 << draw.below(8);
    }
    let length = buffer.len();
    let part = |draw: &mut Rng| {
        let Part { start, length: octets } = *draw.pick(&frames);
        match draw.below(8) {
            0 => Part { start: start.saturating_sub(1), length: octets + 1 },
            1 => Part { start: start + 1, length: octets - 1 },
            2 => Part { start, length: octets + 1 },
            3 => Part { start, length: octets - 1 },
            4 => {
                let start = draw.within(0, length);
                Part { start, length: draw.within(0, length - start) }
            }
            5 => outside(length, draw),
            _ => Part { start, length: octets },
        }
    };
    let records = (0..draw.within(0, 30)).map(|_| part(draw)).collect();
    (buffer, records)
}

/// Why a part is not inside.
#[derive(Clone, Copy)]
pub enum Outside {
    NextToTheEnd,
    StartsBeyond,
    StartsBeyondWithOctets,
    OneTooLong,
    TooLong,
    WrapsInside,
    WrapsOutside,
}

pub const OUTSIDES: [(Outside, &str); 7] = [
    (Outside::NextToTheEnd, "empty, one octet behind the end"),
    (Outside::StartsBeyond, "empty, farther behind the end"),
    (Outside::StartsBeyondWithOctets, "with octets, behind the end"),
    (Outside::OneTooLong, "one octet too long"),
    (Outside::TooLong, "too long by more"),
    (Outside::WrapsInside, "with a sum that is inside without its highest bit"),
    (Outside::WrapsOutside, "with another sum that has too many bits"),
];

impl Outside {
    /// Of a part that is not inside a buffer of this length.
    pub fn of(part: &Part, length: usize) -> Outside {
        match part.start.checked_add(part.length) {
            None if part.start.wrapping_add(part.length) <= length => Outside::WrapsInside,
            None => Outside::WrapsOutside,
            Some(end) if part.start <= length && end == length + 1 => Outside::OneTooLong,
            Some(_) if part.start <= length => Outside::TooLong,
            Some(_) if part.length > 0 => Outside::StartsBeyondWithOctets,
            Some(end) if end == length + 1 => Outside::NextToTheEnd,
            Some(_) => Outside::StartsBeyond,
        }
    }
}

/// Where a part stands that is inside.
#[derive(Clone, Copy)]
pub enum Inside {
    Whole,
    First,
    Last,
    Amidst,
    EmptyAtTheEnd,
    Empty,
}

pub const INSIDES: [(Inside, &str); 6] = [
    (Inside::Whole, "the whole buffer"),
    (Inside::First, "at its start"),
    (Inside::Last, "up to its end"),
    (Inside::Amidst, "amidst"),
    (Inside::EmptyAtTheEnd, "empty, at the very end"),
    (Inside::Empty, "empty, before the end"),
];

impl Inside {
    pub fn of(part: &Part, length: usize) -> Inside {
        let is_last = part.start + part.length == length;
        match (part.length, part.start) {
            (0, _) if is_last => Inside::EmptyAtTheEnd,
            (0, _) => Inside::Empty,
            (_, 0) if is_last => Inside::Whole,
            (_, 0) => Inside::First,
            _ if is_last => Inside::Last,
            _ => Inside::Amidst,
        }
    }
}

/// The frames of a capture one after another in a buffer, with a record for each, between two more that are not lent.
pub struct Day {
    buffer: Vec<u8>,
    records: Vec<CaptureRecord>,
}

/// What those two hold, and what the others hold before the call beside start and length.
const GUARD: CaptureRecord =
    CaptureRecord { start: 0x5A5A_5A5A_5A5A_5A5A, length: 0xC3C3_C3C3_C3C3_C3C3, number: 0xA5A5_A5A5, canonical: 0x5A5A, kind: 0xC3C3 };

impl Day {
    /// A capture with more frames or octets is read in several calls, because it may be longer than there is memory for.
    pub const FRAMES: usize = 1 << 18;
    pub const OCTETS: usize = 1 << 24;

    pub fn new() -> Day {
        Day { buffer: Vec::new(), records: vec![GUARD] }
    }

    /// Whether there is room for a frame, which there is for one of any length where there is no other.
    pub fn has_room(&self, frame: &[u8]) -> bool {
        self.len() == 0 || self.len() < Day::FRAMES && self.buffer.len() + frame.len() <= Day::OCTETS
    }

    pub fn add(&mut self, frame: &[u8]) {
        // A vector that grows by itself may take twice as much as it holds.
        if self.buffer.capacity() < self.buffer.len() + frame.len() {
            self.buffer.reserve_exact(frame.len().max(Day::OCTETS / 8));
        }
        self.records.push(CaptureRecord { start: self.buffer.len(), length: frame.len(), ..GUARD });
        self.buffer.extend(frame);
    }

    /// How many frames there are.
    pub fn len(&self) -> usize {
        self.records.len() - 1
    }

    /// The call; whether the records beside those that are lent are as they were.
    pub fn read(&mut self) -> bool {
        let count = self.len();
        self.records.push(GUARD);
        bare::captures(&self.buffer, &mut self.records[1..=count]);
        let holds = self.records[0] == GUARD && self.records[count + 1] == GUARD;
        self.records.pop();
        holds
    }

    /// The record of this frame.
    pub fn record(&self, at: usize) -> CaptureRecord {
        self.records[1 + at]
    }

    pub fn buffer(&self) -> &[u8] {
        &self.buffer
    }
}
