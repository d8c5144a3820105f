//! Buffers to lend: between guards, and holding a pattern beforehand, so that anything written where nothing should be
//! is seen. And the sizes of those that a writer is lent.

use crate::port::CaptureRecord;
use crate::rng::Rng;

/// Items of guard on each side.
const GUARD: usize = 8;

/// How much longer than needed the longer buffers are.
pub const LONGER: usize = 9;

/// A room beside the octets that are to be written into it.
#[derive(Clone, Copy, PartialEq, Debug)]
pub enum Room {
    Full,
    OneShort,
    Shorter,
    Longer,
}

pub const ROOMS: [(Room, &str); 4] = [
    (Room::Full, "exactly full"),
    (Room::OneShort, "one octet short"),
    (Room::Shorter, "shorter"),
    (Room::Longer, "longer"),
];

impl Room {
    pub fn of(room: usize, needed: usize) -> Room {
        if room > needed {
            Room::Longer
        } else {
            match needed - room {
                0 => Room::Full,
                1 => Room::OneShort,
                _ => Room::Shorter,
            }
        }
    }

    pub fn is_enough(self) -> bool {
        matches!(self, Room::Full | Room::Longer)
    }
}

/// Which rooms a writer is tried in.
#[derive(Clone, Copy, PartialEq)]
pub enum Tried {
    /// One of each kind.
    Each,
    /// Exactly full, and half of the time one of another kind.
    Some,
    /// Every size up to the longer ones.
    All,
}

/// Rooms for this many octets. Which one is drawn does not follow the order of the inputs, so that no kind of input meets one kind
/// of room alone. A room that is shorter by more than one octet is now and then none at all.
pub fn rooms(tried: Tried, needed: usize, draw: &mut Rng) -> impl Iterator<Item = usize> {
    let one_short = needed.checked_sub(1);
    let shorter = one_short.filter(|&most| most > 0).map(|most| if draw.chance(4) { 0 } else { draw.below(most) });
    let longer = Some(needed + LONGER);
    let others = match tried {
        Tried::Each => [one_short, shorter, longer],
        Tried::All => [None; 3],
        Tried::Some => [[one_short, shorter, longer, None, None, None][draw.below(6)], None, None],
    };
    let all = if tried == Tried::All { 0..needed + LONGER + 1 } else { needed..needed + 1 };
    all.chain(others.into_iter().flatten())
}

/// The pattern alternates from call to call: what happens to equal one pattern differs from the next.
pub struct Lent<T> {
    pattern: fn(usize, usize) -> T,
    patterns: [Vec<T>; 2],
    store: Vec<T>,
    turn: usize,
    len: usize,
}

pub fn octets() -> Lent<u8> {
    Lent::new(|i, turn| (i.wrapping_mul(131) ^ (i >> 8) ^ [0x35, 0xCA][turn]) as u8)
}

pub fn sizes() -> Lent<usize> {
    Lent::new(|i, turn| [0xA5A5_A5A5_A5A5_A5A5, 0x5A5A_5A5A_5A5A_5A5A][turn] ^ i)
}

pub fn records() -> Lent<CaptureRecord> {
    Lent::new(|i, turn| {
        let pattern = [0xA5A5_A5A5_A5A5_A5A5, 0x5A5A_5A5A_5A5A_5A5A][turn] ^ i;
        CaptureRecord { start: pattern, length: !pattern, number: pattern as u32, canonical: pattern as u16, kind: !pattern as u16 }
    })
}

impl<T: Copy + PartialEq> Lent<T> {
    fn new(pattern: fn(usize, usize) -> T) -> Lent<T> {
        Lent { pattern, patterns: [Vec::new(), Vec::new()], store: Vec::new(), turn: 0, len: 0 }
    }

    fn grow(&mut self, size: usize) {
        if size > self.store.len() {
            let pattern = self.pattern;
            self.patterns = [0, 1].map(|turn| (0..2 * size).map(|i| pattern(i, turn)).collect());
            self.store = self.patterns[0].clone();
        }
    }

    /// Room for `len` items, all of them pattern.
    pub fn room(&mut self, len: usize) {
        let size = len + 2 * GUARD;
        self.grow(size);
        self.turn ^= 1;
        self.len = len;
        self.store[..size].copy_from_slice(&self.patterns[self.turn][..size]);
    }

    /// Room just for these items, which it holds.
    pub fn hold(&mut self, items: &[T]) {
        self.room(items.len());
        self.store[GUARD..GUARD + items.len()].copy_from_slice(items);
    }

    pub fn len(&self) -> usize {
        self.len
    }

    pub fn ptr(&self) -> *const T {
        self.store[GUARD..].as_ptr()
    }

    pub fn mut_ptr(&mut self) -> *mut T {
        self.store[GUARD..].as_mut_ptr()
    }

    pub fn items(&self) -> &[T] {
        &self.store[GUARD..GUARD + self.len]
    }

    fn as_it_was(&self, from: usize, to: usize) -> bool {
        self.store[from..to] == self.patterns[self.turn][from..to]
    }

    /// Whether the first `count` items alone may have been written: the others, and the guards, are as they were.
    pub fn written_only(&self, count: usize) -> bool {
        self.as_it_was(0, GUARD) && self.as_it_was(GUARD + count, self.len + 2 * GUARD)
    }

    /// Whether it starts with these items, and all else is as it was.
    pub fn is(&self, items: &[T]) -> bool {
        items.len() <= self.len && self.items()[..items.len()] == *items && self.written_only(items.len())
    }
}

/// The octets on each side of a struct that is lent.
const SIDE: [u8; 16] = *b"these stay as is";

/// One struct to lend, between guards.
#[repr(C)]
pub struct Between<T> {
    before: [u8; 16],
    pub item: T,
    after: [u8; 16],
}

impl<T> Between<T> {
    pub fn new(item: T) -> Between<T> {
        Between { before: SIDE, item, after: SIDE }
    }

    /// The item's place, by way of the whole, so that a compiler may not take the guards for untouched.
    pub fn mut_ptr(&mut self) -> *mut T {
        let whole: *mut Between<T> = self;
        unsafe { std::ptr::addr_of_mut!((*whole).item) }
    }

    /// Whether the item alone may have been written.
    pub fn holds(&self) -> bool {
        self.before == SIDE && self.after == SIDE
    }
}
