//! Texts, callsigns with SSIDs, and addresses to print.

use crate::flat::{station, FlatAddress, ADDRESS, ONES, RESERVED, SSID};
use crate::records::any_address;
use crate::rng::Rng;

pub type Each<'a> = &'a mut dyn FnMut(&[u8]);
pub type EachParts<'a> = &'a mut dyn FnMut(&[u8], u8);
pub type EachPair<'a> = &'a mut dyn FnMut(&[u8], &[u8]);

/// Document 01's texts.
pub const DOCUMENT: [&str; 9] =
    ["VK7NTK-16", "VK7NTK-300", "-1", "-300", "ID-15", "TOOLONGX-16", "BOX-", "BOX-+5", "vk7n--1"];

/// Texts at the limits of each rule.
pub const LIMITS: [&str; 52] = [
    "", "A", "z", "0", "ABCDEF", "ABCDEFG", "abcdef-0", "ABCDEF-15", "ABCDEF-16", "ABCDEFG-15", "ABCDEFG-256", "A-0", "A-00",
    "A-015", "A-016", "A-255", "A-256", "A-0255", "A-0256", "A-65536", "A-4294967296", "A-18446744073709551616", "A-+0", "A-+15",
    "A-+16", "A-+255", "A-+256", "A-+", "A-++1", "A-1+", "A-+-1", "A- 1", "A-1 ", "A-a", "A-0x1", "-", "--", "---", "-0", "-16",
    "-+", "A--", "A-1-", "-A-1", " A", "A ", "A B", "A_B", "A.B", "A/B-1", "@", "[A]",
];

/// Texts outside ASCII: letters, digits, and characters whose upper case is ASCII, longer, or two characters.
pub const WIDE: [&str; 16] = [
    "É", "é", "ÉCOLE-16", "ß", "ı", "ſ", "ﬁ", "ŉ", "Ω-3", "٣", "BOX-٣", "²", "日本", "ǆ", "ΐ", "A\u{80}",
];

/// Every text over a small alphabet, up to this length.
pub fn all(longest: usize, each: Each) {
    const ALPHABET: &[u8] = b"AZaz01569-+ _.";
    fn extend(text: &mut Vec<u8>, left: usize, each: Each) {
        each(text);
        if left > 0 {
            for &character in ALPHABET {
                text.push(character);
                extend(text, left - 1, each);
                text.pop();
            }
        }
    }
    extend(&mut Vec::new(), longest, each);
}

/// Each octet at each place of some texts, put in the place of a character or between two.
pub fn every_octet(each: Each) {
    for text in ["BOX12-3", "ABCDEF-15", "a-+07", "Q"] {
        for at in 0..=text.len() {
            for octet in 0..=255 {
                let mut changed = text.as_bytes().to_vec();
                changed.insert(at, octet);
                each(&changed);
                if at < text.len() {
                    changed.remove(at + 1);
                    each(&changed);
                }
            }
        }
    }
}

/// Every SSID text of a number up to 1,100, with zeros and a plus sign before it.
pub fn ssids(each: Each) {
    for number in 0..=1100 {
        for before in ["", "0", "+", "+0", "00000000000000000000", "-", "++", " "] {
            each(format!("BOX-{}{}", before, number).as_bytes());
        }
    }
}

pub fn seeded(seed: u64, count: usize, each: Each) {
    let mut rng = Rng::new(seed);
    for _ in 0..count {
        let mut text = callsign(&mut rng);
        for _ in 0..*rng.pick(&[0, 1, 1, 1, 1, 2]) {
            text.push(b'-');
            text.extend(ssid_text(&mut rng));
        }
        if rng.chance(50) {
            let more = rng.within(0, 600);
            text.extend(std::iter::repeat(*rng.pick(b"A0-")).take(more));
        }
        each(&text);
    }
}

/// Text with characters of every script, and octets that are no text at all.
pub fn wide(seed: u64, count: usize, each: Each) {
    let mut rng = Rng::new(seed);
    for _ in 0..count {
        let mut text = callsign(&mut rng);
        let at = rng.within(0, text.len());
        if rng.chance(3) {
            text.insert(at, rng.octet() | 0x80);
        } else {
            let limit = *rng.pick(&[0x100, 0x250, 0x600, 0x3100, 0x1_0000, 0x11_0000]);
            let character = char::from_u32(rng.within(0x80, limit - 1) as u32).unwrap_or('é');
            let mut octets = [0; 4];
            text.splice(at..at, character.encode_utf8(&mut octets).bytes());
        }
        if rng.chance(2) {
            text.push(b'-');
            text.extend(ssid_text(&mut rng));
        }
        each(&text);
    }
}

pub fn parts(seed: u64, count: usize, each: EachParts) {
    let mut rng = Rng::new(seed);
    for ssid in 0..=255 {
        for known in ["", "A", "abcdef", "ABCDEFG", "A-1", "A B", "ABCDEF7_"] {
            each(known.as_bytes(), ssid);
        }
    }
    for _ in 0..count {
        let ssid = if rng.chance(4) { rng.octet() } else { rng.octet() % 17 };
        each(&callsign(&mut rng), ssid);
    }
}

/// Callsigns with an octet of 128 or more.
pub fn wide_parts(seed: u64, count: usize, each: EachParts) {
    let mut rng = Rng::new(seed);
    let mut ssids = Rng::new(seed);
    wide(rng.next(), count, &mut |text| each(text, ssids.octet() % 20));
}

/// Every SSID, and every number as the reserved bits; each character at each place with each SSID near a limit; lent as eight octets,
/// fewer, and more.
pub fn addresses(seed: u64, count: usize, each: Each) {
    for known in [b"BOX12 ", b"      ", b"A     ", b"ABCDEF", b"\0\0\0\0\0\0", b" A B  "] {
        for octet in 0..=255 {
            each(&[&known[..], &[octet, ONES]].concat());
            each(&[&known[..], &[octet % 16, octet]].concat());
        }
    }
    for at in 0..SSID {
        for octet in 0..=255 {
            for ssid in [0, 1, 9, 10, 15, 16] {
                let mut address = station(b"BOX12 \0");
                address[at] = octet;
                address[SSID] = ssid;
                each(&address);
            }
        }
    }
    for length in 0..=12 {
        each(&b"BOX123\x0b\x02BCDEF"[..length]);
        each(&b"      \x00\x01zzzzz"[..length]);
    }
    let mut rng = Rng::new(seed);
    for _ in 0..count {
        each(&any_address(&mut rng));
    }
}

/// Pairs of addresses: equal, one octet changed to each other (case and padding among them), every two SSIDs and every two numbers as
/// reserved bits, one that the Rust can't hold beside itself with other reserved bits, cut short, and seeded.
pub fn stations(seed: u64, count: usize, each: EachPair) {
    let known: [&FlatAddress; 4] = [b"BOX12 \x03\x03", b"abcDEF\x00\x02", b"      \x0F\x01", b"\0\0\0\0\0\0\x00\x00"];
    for address in known {
        for at in 0..ADDRESS {
            for octet in 0..=255 {
                let mut other = *address;
                other[at] = octet;
                each(address, &other);
                each(&other, address);
            }
        }
        for reserved in 0..=255 {
            let wide = |reserved: u8| [&[0x80], &address[1..RESERVED], &[reserved]].concat();
            each(&wide(ONES), &wide(reserved));
        }
        for length in 0..=ADDRESS + 2 {
            each(&[&address[..], b"zz"].concat()[..length], address);
        }
    }
    for pair in 0..=0xFFFF_u16 {
        let [one, other] = pair.to_be_bytes();
        let box12 = |ssid: u8, reserved: u8| [b'B', b'O', b'X', b'1', b'2', b' ', ssid, reserved];
        each(&box12(one, ONES), &box12(other, ONES));
        each(&box12(3, one), &box12(3, other));
    }
    let mut rng = Rng::new(seed);
    for _ in 0..count {
        let one = any_address(&mut rng);
        let mut other = if rng.chance(2) { one } else { any_address(&mut rng) };
        if rng.chance(3) {
            other[rng.below(ADDRESS)] ^= 1 << rng.below(8);
        }
        if rng.chance(2) {
            other[RESERVED] = rng.octet();
        }
        each(&one, &other);
    }
}

fn callsign(rng: &mut Rng) -> Vec<u8> {
    const USUAL: &[u8] = b"ABCXYZabcxyz0189";
    let length = *rng.pick(&[0, 1, 2, 3, 4, 5, 5, 6, 6, 6, 7, 8]);
    let strange = rng.chance(4);
    (0..length).map(|_| if strange && rng.chance(4) { rng.octet() & 0x7F } else { *rng.pick(USUAL) }).collect()
}

fn ssid_text(rng: &mut Rng) -> Vec<u8> {
    let mut text = Vec::new();
    if rng.chance(5) {
        text.push(b'+');
    }
    text.extend(std::iter::repeat(b'0').take(*rng.pick(&[0, 0, 0, 1, 2, 30])));
    match rng.below(8) {
        0 => text.extend((0..rng.within(0, 3)).map(|_| rng.octet() & 0x7F)),
        1 => text.extend(rng.within(240, 270).to_string().bytes()),
        2 => text.extend(rng.next().to_string().bytes()),
        _ => text.extend(rng.within(0, 17).to_string().bytes()),
    }
    text
}
