//! Octets off the air: all of them where they are short, seeded ones around every boundary, and damaged copies.

use crate::domain::{self, ADDED, P_F};
use crate::flat::{FlatAddress, GROUP, RESERVED, SSID};
use crate::rng::Rng;

/// Document 01's example frame, GAUGE from BOX12-3 with a UI frame, and its address field.
pub const FRAME: [u8; 18] =
    [0x8E, 0x82, 0xAA, 0x8E, 0x8A, 0x40, 0xE0, 0x84, 0x9E, 0xB0, 0x62, 0x64, 0x40, 0x67, 0x03, 0xF0, 0x4F, 0x4B];
pub const FIELD: usize = 14;

pub type Each<'a> = &'a mut dyn FnMut(&[u8]);

/// Document 01's address field with this content.
pub fn with_content(content: &[u8]) -> Vec<u8> {
    [&FRAME[..FIELD], content].concat()
}

/// Document 01's example with this many repeaters, named after their places, every second one marked.
pub fn with_repeaters(count: usize, content: &[u8]) -> Vec<u8> {
    with_route((0..count).map(|i| (i, i % 2 == 0)), content)
}

/// The same on its way to the last of them: all others are marked.
pub fn before_the_last(count: usize, content: &[u8]) -> Vec<u8> {
    with_route((0..count).map(|i| (i, i + 1 < count)), content)
}

/// The same with any repeaters, each named after a number, and marked or not.
pub fn with_route(route: impl Iterator<Item = (usize, bool)>, content: &[u8]) -> Vec<u8> {
    let last = |i: usize, marked| 0x30 | (i % 16) as u8 | if marked { 0x40 } else { 0 };
    let name = |i: usize| b'0' + (i % 10) as u8;
    with_groups(route.map(|(i, marked)| [b'R', b'E', b'L', b'A', b'Y', name(i), last(i, marked)]), content)
}

/// Eight places named after their numbers, those marked whose bit is set, of which so many are repeaters. The others stand behind the
/// address field as they would in it, but for the first two octets, which are UI's: a search that went on past the route would meet them.
pub fn with_marks_beyond(count: usize, marks: usize) -> Vec<u8> {
    let places = |count: usize| (0..count).map(move |i| (i, marks >> i & 1 == 1));
    let mut content = with_route(places(8), &[]).split_off(FIELD + 7 * count);
    content.resize(content.len().max(2), 0);
    content[..2].copy_from_slice(&[0x03, 0xF0]);
    with_route(places(count), &content)
}

/// The same with one repeater that is not marked: this address, or what the field's bits leave of it.
pub fn with_repeater(address: &FlatAddress, content: &[u8]) -> Vec<u8> {
    let mut group = [0; GROUP];
    group.copy_from_slice(&address[..GROUP]);
    group[SSID] &= 0x0F;
    let mut frame = with_groups(std::iter::once(group), content);
    set_reserved(&mut frame, 2, address[RESERVED]);
    frame
}

/// So many nulls before these octets.
pub fn behind(nulls: usize, octets: &[u8]) -> Vec<u8> {
    [&vec![0; nulls], octets].concat()
}

/// Each group is given as it is before it is shifted.
fn with_groups(groups: impl Iterator<Item = [u8; GROUP]>, content: &[u8]) -> Vec<u8> {
    let mut octets = FRAME[..FIELD].to_vec();
    octets[FIELD - 1] &= 0xFE;
    octets.extend(groups.flatten().map(|character| character << 1));
    *octets.last_mut().expect("the field is not empty") |= 1;
    octets.extend(content);
    octets
}

/// One content of each kind, with P/F both ways, and some that are refused.
pub fn contents() -> Vec<Vec<u8>> {
    let mut all: Vec<Vec<u8>> = Vec::new();
    for poll in [0x00, 0x10] {
        all.push(vec![0xA6 | poll, 0xF0, b'H', b'I']);
        all.push(vec![0x42 | poll, 0xCF]);
        all.extend([0x61, 0x45, 0xE9, 0x2F, 0x43, 0x0F, 0x63].map(|control| vec![control | poll]));
        all.push(vec![0x87 | poll, 0x0B, 0x74, 0x3F]);
        all.push(vec![0x03 | poll, 0xF0, b'O', b'K']);
        all.push(vec![0x03 | poll, 0x20]);
        all.extend([0xAD, 0x6F, 0xAF, 0xE3].map(|control| vec![control | poll]));
        all.push(vec![0xAF | poll, 0x82, 0x80, 0x00]);
        all.push(vec![0xE3 | poll, 0xF0]);
    }
    all.extend([vec![0x00], vec![0x03], vec![0x07], vec![0x87, 0x01, 0x02], vec![0x01, 0xAA]]);
    all
}

/// How many of these have P/F clear: they come first.
pub const CONTENTS: usize = 18;

/// Each kind that the Rust does not know, P/F both ways and SREJ with each N(R), with so many octets behind its control octet.
pub fn added(length: usize, each: Each) {
    let behind: Vec<u8> = (0..length).map(|i| (0xF0 + 37 * i) as u8).collect();
    for added in &ADDED {
        for numbers in if added.refusal == 6 { 0..8 } else { 0..1 } {
            for poll in [0, P_F] {
                each(&[&[added.control | poll | numbers << 5], &behind[..]].concat());
            }
        }
    }
}

/// The same behind none to nine repeaters, of which every second one is marked, none, all but the last, or all; behind nulls; and behind an
/// address field of each span from 1 to 22.
pub fn unknown(each: Each) {
    for length in (0..12).chain([100, 255, 256, 257, 300]) {
        for count in 0..=9 {
            added(length, &mut |content| {
                each(&with_repeaters(count, content));
                each(&before_the_last(count, content));
                [false, true].iter().for_each(|&marked| each(&with_route((0..count).map(|i| (i, marked)), content)));
            });
        }
        for nulls in [1, 2, 7, 8, 9] {
            added(length, &mut |content| each(&behind(nulls, &with_repeaters(2, content))));
        }
    }
    for span in 1..=22 {
        added(2, &mut |content| {
            let mut input = with_repeaters(1, &[]);
            input.resize(22, 0x84);
            input[..span - 1].iter_mut().for_each(|octet| *octet &= 0xFE);
            input.truncate(span);
            input[span - 1] |= 1;
            each(&[&input[..], content].concat());
            each(&[&input[..], &content[..1]].concat());
            each(&input);
        });
    }
}

/// Frames to damage: each content behind none, one, two and eight repeaters.
pub fn good_frames() -> Vec<Vec<u8>> {
    let routes = [0, 1, 2, 8];
    contents().iter().flat_map(|content| routes.map(|count| with_repeaters(count, content))).collect()
}

pub fn short(each: Each) {
    each(&[]);
    for a in 0..=255 {
        each(&[a]);
        for b in 0..=255 {
            each(&[a, b]);
        }
    }
}

/// Every content of two octets.
pub fn pairs(each: Each) {
    for pair in 0..=0xFFFF_u16 {
        each(&pair.to_be_bytes());
    }
}

pub fn seeded_contents(seed: u64, count: usize, each: Each) {
    let mut rng = Rng::new(seed);
    for _ in 0..count {
        let length = if rng.chance(20) { rng.within(0, 300) } else { rng.within(0, 12) };
        each(&seeded_content(&mut rng, length));
    }
}

/// The same contents, each behind document 01's address field.
pub fn framed(contents: impl FnOnce(Each), each: Each) {
    contents(&mut |content| each(&with_content(content)));
}

/// Every control octet with content of 0 to 6 octets, the others 0, all ones, and seeded.
pub fn controls(seed: u64, each: Each) {
    let mut rng = Rng::new(seed);
    each(&[]);
    for control in 0..=255 {
        for length in 1..=6 {
            for fill in 0..8 {
                let mut content = vec![control];
                content.extend((1..length).map(|_| match fill {
                    0 => 0x00,
                    1 => 0xFF,
                    _ => rng.octet(),
                }));
                each(&content);
            }
        }
    }
}

/// FRMR: all pairs of flags and numbers, and every rejected control octet beside some of them, P/F both ways.
pub fn frmr(each: Each) {
    for control in [0x87, 0x97] {
        for pair in 0..=0xFFFF_u16 {
            let [flags, numbers] = pair.to_be_bytes();
            each(&[control, flags, numbers, 0x44]);
        }
        for rejected in 0..=255 {
            for (flags, numbers) in [(0x00, 0x00), (0xFF, 0xFF), (0x0A, 0x5A), (0xF5, 0xA5)] {
                each(&[control, flags, numbers, rejected]);
            }
        }
    }
}

/// All pairs of the first two SSID octets, before a UI and before an RR.
pub fn ssid_pairs(each: Each) {
    for content in [&[0x03, 0xF0, 0x41][..], &[0x31]] {
        for pair in 0..=0xFFFF_u16 {
            let mut input = with_content(content);
            let [first, second] = pair.to_be_bytes();
            input[6] = first;
            input[13] = second;
            each(&input);
        }
    }
}

/// Every octet at every place of the address field, for none to nine repeaters.
pub fn address_places(each: Each) {
    for count in 0..=9 {
        let base = with_repeaters(count, &[0x03, 0xF0, 0x41]);
        for at in 0..FIELD + 7 * count {
            for octet in 0..=255 {
                let mut input = base.clone();
                input[at] = octet;
                each(&input);
            }
        }
    }
}

/// Every way to mark none to eight repeaters, who are all different, two in turns, or one alone.
pub fn marks(each: Each) {
    for count in 0..=8 {
        for marks in 0..1 << count {
            for names in [8, 2, 1] {
                each(&with_route((0..count).map(|i| (i % names, marks >> i & 1 == 1)), &[0x03, 0xF0, 0x41]));
            }
        }
        (0..256).for_each(|marks| each(&with_marks_beyond(count, marks)));
    }
}

/// Every setting of the reserved bits in every two groups, for none to eight repeaters: those marked before each place that may be due,
/// and, which breaks that order, the last one besides.
pub fn reserved_bits(each: Each) {
    for count in 0..=8 {
        for due in 0..=count {
            for last in if due + 1 < count { vec![false, true] } else { vec![false] } {
                let route = (0..count).map(|i| (i, i < due || last && i + 1 == count));
                let frame = with_route(route, &[0x03, 0xF0, 0x41]);
                every_two_settings(&frame, 2 + count, each);
            }
        }
    }
}

fn every_two_settings(frame: &[u8], groups: usize, each: Each) {
    for one in 0..groups {
        for other in one + 1..groups {
            for settings in 0..16 {
                let mut input = frame.to_vec();
                set_reserved(&mut input, one, settings / 4);
                set_reserved(&mut input, other, settings % 4);
                each(&input);
            }
        }
    }
}

/// Sets the reserved bits of a group of a frame that has no nulls before it.
pub fn set_reserved(frame: &mut [u8], group: usize, reserved: u8) {
    let seventh = &mut frame[domain::seventh(0, group)];
    *seventh = domain::with_reserved(*seventh, reserved);
}

pub fn leading_nulls(each: Each) {
    for frame in good_frames() {
        for nulls in (0..=20).chain([63, 64, 65, 255, 256, 257, 300]) {
            each(&behind(nulls, &frame));
        }
    }
    for nulls in 0..=600 {
        each(&vec![0; nulls]);
    }
}

/// The first nonzero octet, each of its bits alone and all of them, at each place of a search by eights, and the first odd octet there
/// or at each place after it, or nothing but nulls. What follows lets the last eight be whole, or leaves the found octet to the rest.
pub fn searches(each: Each) {
    let tails = [&[][..], &[0x00], &[0x01], &[0x03, 0xF0, 0x41], &[0x00; 8], &[0xFF; 9], &FRAME];
    for nulls in 0..=25 {
        for first in [0x01, 0xFF, 0x02, 0x04, 0x08, 0x10, 0x20, 0x40, 0x80, 0xFE] {
            let input = behind(nulls, &[first]);
            if first % 2 == 1 {
                tails.iter().for_each(|tail| each(&[&input[..], tail].concat()));
                continue;
            }
            [tails[0], tails[1], tails[4]].iter().for_each(|nulls| each(&[&input[..], nulls].concat()));
            for between in 0..=24 {
                for (even, odd) in [(0x00, 0x01), (0xFE, 0xFF)] {
                    let field = [&input[..], &vec![even; between], &[odd]].concat();
                    tails[..5].iter().for_each(|tail| each(&[&field[..], tail].concat()));
                }
            }
        }
    }
}

pub fn single_bits(each: Each) {
    for frame in good_frames() {
        every_bit(&frame).for_each(|input| each(&input));
    }
}

/// A frame with each of its bits changed alone.
pub fn every_bit(frame: &[u8]) -> impl Iterator<Item = Vec<u8>> + '_ {
    (0..8 * frame.len()).map(move |bit| flipped(frame, &[bit]))
}

/// Every two bits of one frame of each content.
pub fn double_bits(each: Each) {
    for content in contents() {
        let frame = with_content(&content);
        for first in 0..8 * frame.len() {
            for second in first + 1..8 * frame.len() {
                each(&flipped(&frame, &[first, second]));
            }
        }
    }
}

pub fn flipped(frame: &[u8], bits: &[usize]) -> Vec<u8> {
    let mut input = frame.to_vec();
    for bit in bits {
        input[bit / 8] ^= 1 << (bit % 8);
    }
    input
}

/// Every prefix of every good frame.
pub fn prefixes(each: Each) {
    for frame in good_frames() {
        for length in 0..=frame.len() {
            each(&frame[..length]);
        }
    }
}

/// Every span from 1 to 100 with 0 to 8 octets of content after 0 to 3 nulls, filled anew `rounds` times.
pub fn spans(seed: u64, rounds: usize, each: Each) {
    let mut rng = Rng::new(seed);
    for _ in 0..rounds {
        for span in 1..=100 {
            for content in 0..=8 {
                for nulls in 0..=3 {
                    each(&seeded_frame(&mut rng, nulls, span, content));
                }
            }
        }
    }
}

/// Frames of a random shape, most of them near a boundary.
pub fn frames(seed: u64, count: usize, each: Each) {
    let mut rng = Rng::new(seed);
    for _ in 0..count {
        each(&any_frame(&mut rng));
    }
}

/// A random frame, damaged once or a few times.
pub fn damaged(seed: u64, count: usize, each: Each) {
    let mut rng = Rng::new(seed);
    let good = good_frames();
    for _ in 0..count {
        let mut input = if rng.chance(2) { rng.pick(&good).clone() } else { any_frame(&mut rng) };
        for _ in 0..rng.within(1, 3) {
            damage(&mut rng, &mut input);
        }
        each(&input);
    }
}

/// An input as it is, or half of the time with the marks of its repeaters set before a place that is drawn, and clear from there on.
pub fn marks_in_order(input: &[u8], rng: &mut Rng) -> Vec<u8> {
    let mut octets = input.to_vec();
    if rng.chance(2) {
        let count = domain::repeaters(input);
        let due = rng.within(0, count);
        for place in 0..count {
            let last = &mut octets[domain::mark_at(input, place)];
            *last = *last & 0x7F | if place < due { 0x80 } else { 0 };
        }
    }
    octets
}

/// Octets without any shape.
pub fn noise(seed: u64, count: usize, each: Each) {
    let mut rng = Rng::new(seed);
    for _ in 0..count {
        let even = !rng.chance(3);
        let length = rng.within(0, 110);
        let mut input = rng.octets(length);
        if even {
            let end = rng.within(0, 90).min(length);
            input[..end].iter_mut().for_each(|octet| *octet &= 0xFE);
        }
        each(&input);
    }
}

/// Inputs around the sizes where something might change its mind, up to 65,537 octets.
pub fn long(seed: u64, each: Each) {
    let mut rng = Rng::new(seed);
    for size in [255, 256, 257, 258, 271, 272, 273, 330, 1023, 1024, 4095, 4096, 4097, 8192, 32767, 32768, 65535, 65536, 65537] {
        each(&vec![0; size]);
        each(&vec![2; size]);
        let mut far_end = vec![0x42; size - 1];
        far_end.extend([0x43, 0x01]);
        each(&far_end);
        each(&far_end[..size]);
        for count in [0, 2, 8, 9] {
            for control in [0x00, 0x01, 0x03, 0x87, 0x0D, 0xAF] {
                let mut input = with_repeaters(count, &[control, 0xF0]);
                input.extend(rng.octets(size.saturating_sub(input.len())));
                each(&input);
                each(&behind(size, &input));
            }
        }
    }
}

pub fn any_frame(rng: &mut Rng) -> Vec<u8> {
    let nulls = match rng.below(10) {
        0 => rng.within(1, 3),
        1 => rng.within(0, 40),
        _ => 0,
    };
    let span = match rng.below(8) {
        0 => rng.within(1, 100),
        1 => rng.within(12, 22),
        2 => rng.within(68, 79),
        3 => (FIELD + 7 * rng.within(0, 9) + 1) - rng.within(0, 2),
        _ => FIELD + 7 * rng.within(0, 8),
    };
    let content = match rng.below(10) {
        0 => 0,
        1 => rng.within(0, 300),
        2 | 3 => rng.within(0, 40),
        _ => rng.within(1, 8),
    };
    seeded_frame(rng, nulls, span, content)
}

/// Nulls, then an address field of this span (its first octet not null, only its last odd), then content.
fn seeded_frame(rng: &mut Rng, nulls: usize, span: usize, content: usize) -> Vec<u8> {
    let mut input = vec![0; nulls];
    while input.len() < nulls + span {
        input.extend(group(rng));
    }
    input.truncate(nulls + span);
    if span > 1 && input[nulls] == 0 && !rng.chance(8) {
        input[nulls] = 0x82;
    }
    input[nulls + span - 1] |= 1;
    input.extend(seeded_content(rng, content));
    input
}

/// Seven even octets: callsigns that people use, padded ones, any characters, zeros.
fn group(rng: &mut Rng) -> [u8; 7] {
    const USUAL: &[u8] = b"ABCDEFGHIJKLMNOPQRSTUVWXYZ0123456789";
    let used = rng.within(0, 6);
    let style = rng.below(8);
    let mut octets = [0; 7];
    for (i, octet) in octets.iter_mut().enumerate() {
        let character = match style {
            0 => rng.octet() & 0x7F,
            1 if rng.chance(3) => *rng.pick(&[0x00, b' ', 0x7F, b'a', b'-']),
            2 if i >= used => 0x00,
            _ if i >= used => b' ',
            _ => *rng.pick(USUAL),
        };
        *octet = character << 1;
    }
    octets[6] = match rng.below(4) {
        0 => rng.octet() & 0xFE,
        1 => 0x60 | (rng.octet() & 0x1E),
        2 => 0xE0 | (rng.octet() & 0x1E),
        _ => *rng.pick(&[0x60, 0xE0]),
    };
    octets
}

fn seeded_content(rng: &mut Rng, length: usize) -> Vec<u8> {
    const NAMED: [u8; 16] = [0x01, 0x06, 0x07, 0x08, 0xC3, 0xC4, 0xCA, 0xCB, 0xCC, 0xCD, 0xCE, 0xCF, 0xF0, 0xFF, 0x10, 0x20];
    const CONTROLS: [u8; 14] = [0x03, 0x00, 0x01, 0x05, 0x09, 0x2F, 0x43, 0x0F, 0x63, 0x87, 0x0D, 0x6F, 0xAF, 0xE3];
    let mut content = rng.octets(length);
    if length > 0 && !rng.chance(5) {
        let control = *rng.pick(&CONTROLS);
        content[0] = match control {
            0x00 => rng.octet() & 0xFE,
            0x01 | 0x05 | 0x09 | 0x0D => control | (rng.octet() & 0xF0),
            _ => control | (rng.octet() & 0x10),
        };
        if control == 0x87 && !rng.chance(3) {
            content.resize(4, 0x5A);
        }
    }
    if length > 1 && !rng.chance(4) {
        content[1] = *rng.pick(&NAMED);
    }
    content
}

pub fn damage(rng: &mut Rng, input: &mut Vec<u8>) {
    if input.is_empty() {
        input.push(rng.octet());
        return;
    }
    let at = rng.below(input.len());
    match rng.below(7) {
        0 => input[at] ^= 1 << rng.below(8),
        1 => input[at] = rng.octet(),
        2 => input.truncate(at),
        3 => input.insert(at, rng.octet()),
        4 => {
            input.remove(at);
        }
        5 => {
            let octet = input[at];
            input.insert(at, octet);
        }
        _ => {
            let other = rng.below(input.len());
            input.swap(at, other);
        }
    }
}
