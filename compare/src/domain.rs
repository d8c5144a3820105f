//! Document 01's domain of equality, and what the port owes outside it (docs/DIFFERENCES.md, B); what the hops and the
//! relay owe, which the Rust lacks; and which bits no frame shows. Written from the words of documents 01 and 02; neither the
//! Rust nor the port is asked.

use crate::flat::{self, Flat, FlatAddress, ADDRESS, GROUP, ONES, REPEATERS, RESERVED, SSID};
use crate::flat::{COUNT, ENTRY, KIND, PID_OCTET, ROUTE, SABME, SREJ, TEST, XID};

/// A difference that docs/DIFFERENCES.md lists.
#[derive(Clone, Copy, PartialEq, Debug)]
pub enum Listed {
    /// Nine or more repeaters.
    B1,
    /// Text or a callsign with an octet of 128 or more.
    B2,
    /// A record that the Rust can't hold.
    B3,
    /// Too little room.
    B4,
    /// Content alone, empty.
    B5,
    /// The octet of a layer 3 identifier.
    B6,
    /// The reserved bits of an address.
    B7,
    /// Nulls before a frame.
    B8,
    /// A kind that the Rust does not know.
    B9,
}

pub const LISTED: [(Listed, &str); 9] = [
    (Listed::B1, "nine or more repeaters"),
    (Listed::B2, "text with an octet of 128 or more"),
    (Listed::B3, "a record that the Rust can't hold"),
    (Listed::B4, "too little room, lent on purpose"),
    (Listed::B5, "content alone, empty"),
    (Listed::B6, "a layer 3 identifier written as the octet it carries, where the Rust writes 10 hex"),
    (Listed::B7, "reserved bits written as they were read, or as the record has them, where the Rust writes ones"),
    (Listed::B8, "nulls before a frame refused by 10, where the Rust skips them"),
    (Listed::B9, "SREJ, SABME, XID and TEST read and written, where the Rust answers 6 and 7 and has no such records"),
];

/// What the Rust writes for every octet of the layer 3 class.
pub const RUST_LAYER_3: u8 = 0x10;

/// A kind that the port has and the Rust does not (document 02, M-109): its control octet with P/F and N(R) zero, and the number by which
/// the Rust refuses it, which is document 01's for an S and for a U that it does not recognise.
pub struct Added {
    pub kind: u8,
    pub control: u8,
    pub refusal: u32,
}

pub const ADDED: [Added; 4] = [
    Added { kind: SREJ, control: 0x0D, refusal: 6 },
    Added { kind: SABME, control: 0x6F, refusal: 7 },
    Added { kind: XID, control: 0xAF, refusal: 7 },
    Added { kind: TEST, control: 0xE3, refusal: 7 },
];

/// The bit of P/F in a control octet.
pub const P_F: u8 = 0x10;

/// The kind of this control octet where it is one of these: an S by its low four bits, a U by all but P/F.
pub fn added(control: u8) -> Option<&'static Added> {
    let bare = match control & 3 {
        1 => control & 0x0F,
        3 => control & !P_F,
        _ => return None,
    };
    ADDED.iter().find(|added| added.control == bare)
}

pub fn poll_of(control: u8) -> bool {
    control & P_F != 0
}

/// N(R) in the control octet of one of these kinds: SREJ alone has it.
pub fn receive_of(kind: u8, control: u8) -> u8 {
    if kind == SREJ { control >> 5 } else { 0 }
}

/// The control octet of such a kind; none of another.
pub fn added_control(kind: u8, poll: bool, receive: u8) -> Option<u8> {
    let added = ADDED.iter().find(|added| added.kind == kind)?;
    let receive = if kind == SREJ { receive % 8 } else { 0 };
    Some(added.control | if poll { P_F } else { 0 } | receive << 5)
}

/// Which of these kinds an input has, where its content is looked at: behind an address field of a span of 14 or more.
pub fn added_in(input: &[u8]) -> Option<&'static Added> {
    let (start, end) = field(input)?;
    let (_, control) = control_of(input)?;
    added(control).filter(|_| end - start + 1 >= 14)
}

/// The reserved bits in the seventh octet of a group, 6 and 5, which the Rust writes as ones.
pub const RESERVED_BITS: u8 = 0x60;

/// How many nulls an input starts with.
pub fn nulls(input: &[u8]) -> usize {
    input.iter().take_while(|&&octet| octet == 0).count()
}

/// Whether nulls stand before a frame, or before what else it is: the input starts with a null and is not all nulls. Decoding refuses it
/// by 10 (document 02, M-108).
pub fn is_nulled(input: &[u8]) -> bool {
    input.first() == Some(&0) && nulls(input) < input.len()
}

/// Where the address field starts and ends. It starts after leading nulls: the Rust skips them, and so does the entry for old captures.
pub fn field(input: &[u8]) -> Option<(usize, usize)> {
    let start = input.iter().position(|&octet| octet != 0)?;
    let end = input.iter().position(|&octet| octet % 2 == 1)?;
    Some((start, end))
}

/// The repeaters of an input that has an address field and something after it.
pub fn repeaters(input: &[u8]) -> usize {
    repeaters_of(field(input), input.len())
}

pub fn repeaters_of(field: Option<(usize, usize)>, length: usize) -> usize {
    match field {
        Some((start, end)) if end + 1 < length => (end - start + 1).saturating_sub(14) / 7,
        _ => 0,
    }
}

/// Where the PID of a frame that has one stands: it is the second octet after the address field.
pub fn pid_at(octets: &[u8]) -> usize {
    let (_, end) = field(octets).expect("an address field");
    end + 2
}

/// The octet there; 0 where there is none, as in a record.
pub fn pid_of(input: &[u8]) -> u8 {
    input.get(pid_at(input)).copied().unwrap_or(0)
}

/// Where the seventh octet of a group stands, the first group of all starting here.
pub fn seventh(start: usize, group: usize) -> usize {
    start + GROUP * group + 6
}

/// The reserved bits of a seventh octet as a number from 0 to 3, bit 6 the higher.
pub fn reserved_in(seventh: u8) -> u8 {
    (seventh & RESERVED_BITS) >> 5
}

/// A seventh octet with these reserved bits, and no other bit changed.
pub fn with_reserved(seventh: u8, reserved: u8) -> u8 {
    seventh & !RESERVED_BITS | reserved << 5 & RESERVED_BITS
}

/// The reserved bits of destination, source and each repeater of an input that has them.
pub fn reserved_of(input: &[u8]) -> impl Iterator<Item = u8> + '_ {
    let field = field(input);
    let (start, _) = field.expect("an address field");
    (0..2 + repeaters_of(field, input.len())).map(move |group| reserved_in(input[seventh(start, group)]))
}

/// Whether an octet is of the layer 3 class: its bits 5 and 4 are 01 or 10.
pub fn is_of_class(octet: u8) -> bool {
    matches!(octet >> 4 & 3, 1 | 2)
}

/// Whether a record's identifier is layer 3 with an octet outside the class (document 02, M-105).
pub fn is_outside(record: &Flat) -> bool {
    flat::is_layer_3(record) && !is_of_class(record[PID_OCTET])
}

/// How many octets a record of I or UI takes with this info: its groups, control, PID and info.
pub fn length_with_pid(record: &Flat, info: &[u8]) -> usize {
    GROUP * flat::places(record).count() + 2 + info.len()
}

pub fn is_wide(text: &[u8]) -> bool {
    text.iter().any(|&octet| octet >= 128)
}

/// Whether the Rust can hold an address but for its reserved bits, of which it holds none.
pub fn is_held(address: &FlatAddress) -> bool {
    !is_wide(&address[..SSID]) && address[SSID] <= 15
}

/// Whether an address has a number over 3 as its reserved bits, which two bits can't hold (document 02, M-106).
pub fn is_over(address: &FlatAddress) -> bool {
    address[RESERVED] > ONES
}

/// Whether an address can be written and printed; else the answer is 22.
pub fn encodable(address: &FlatAddress) -> bool {
    is_held(address) && !is_over(address)
}

/// Whether two addresses are of the same station: callsign and SSID are equal, whatever the reserved bits are.
pub fn same_station(one: &FlatAddress, other: &FlatAddress) -> bool {
    one[..RESERVED] == other[..RESERVED]
}

/// Whether there is info beside a kind that has none.
pub fn has_needless(record: &Flat, info: &[u8]) -> bool {
    !flat::has_info(record[KIND]) && !info.is_empty()
}

/// The number that refuses to write a record whatever the room: 0 where the Rust can hold it, or could but for its kind.
pub fn record_number(record: &Flat, info: &[u8]) -> u32 {
    if usize::from(record[COUNT]) > REPEATERS {
        21
    } else if !flat::in_use(record).iter().all(encodable) {
        22
    } else if has_needless(record, info) {
        23
    } else if is_outside(record) {
        25
    } else {
        0
    }
}

/// The hop set, with bit i for a marked place i below the route count, a count over 8 being read as 8; the hops used, the number of
/// its ones; and the due place, the first that is not marked, or the count where all are (document 02, M-102).
pub fn hops(record: &Flat) -> [usize; 3] {
    let count = usize::from(record[COUNT]).min(REPEATERS);
    let marked: Vec<_> = (0..count).filter(|i| record[ROUTE + ENTRY * i + ADDRESS] != 0).collect();
    let due = (0..count).find(|i| !marked.contains(i)).unwrap_or(count);
    [marked.iter().map(|i| 1 << i).sum(), marked.len(), due]
}

/// Our own address, of the callsign and the SSID that the relay is given; none where that is refused by 22.
pub fn own_address(callsign: &[u8], ssid: u8) -> Option<FlatAddress> {
    let mut own = flat::blank(ssid);
    own[..SSID].get_mut(..callsign.len())?.copy_from_slice(callsign);
    Some(own).filter(encodable)
}

/// The due place of a frame that is ours to pass on, or the number that refuses it (document 02, M-100 and M-102).
pub fn relay(record: &Flat, own: &FlatAddress) -> Result<usize, u32> {
    let [set, _, due] = hops(record);
    if due == usize::from(record[COUNT]) {
        Err(41)
    } else if (due..REPEATERS).any(|i| set >> i & 1 == 1) {
        Err(43)
    } else if !same_station(&flat::repeater(record, due), own) {
        Err(42)
    } else {
        Ok(due)
    }
}

/// What is left of an input that owes this: the mark of the due place set, or all as it was.
pub fn relayed(input: &[u8], owed: Result<usize, u32>) -> Vec<u8> {
    let mut octets = input.to_vec();
    if let Ok(due) = owed {
        octets[mark_at(input, due)] |= 0x80;
    }
    octets
}

/// Where the mark of this repeater stands in an input that has it: bit 7 of the last octet of its group.
pub fn mark_at(input: &[u8], place: usize) -> usize {
    let (start, _) = field(input).expect("an address field");
    seventh(start, 2 + place)
}

/// Some bits of some octets: the place of each octet, and which of its bits.
pub type Bits = Vec<(usize, u8)>;

/// The control octet of an input that has one, and its place: it follows the address field.
pub fn control_of(input: &[u8]) -> Option<(usize, u8)> {
    let at = field(input)?.1 + 1;
    input.get(at).map(|&control| (at, control))
}

/// Where a PID of the layer 3 class stands, in I or in UI.
pub fn layer_3_at(input: &[u8]) -> Option<usize> {
    let (control_at, control) = control_of(input)?;
    let has_pid = control % 2 == 0 || control & 0xEF == 0x03;
    Some(control_at + 1).filter(|&at| has_pid && input.get(at).map_or(false, |&octet| is_of_class(octet)))
}

/// The bits of an input that may be others in one with the same frame and length: in FRMR, the high four of the first info octet and the
/// low one of the second (document 02, M-107).
pub fn excepted(input: &[u8]) -> Bits {
    match control_of(input) {
        Some((at, control)) if control & 0xEF == 0x87 => vec![(at + 1, 0xF0), (at + 2, 0x01)],
        _ => Bits::new(),
    }
}

/// The bits of an input that the Rust's frame does not show, and the port's does, beside another of the same length: the reserved bits of
/// each address (B7), and the PID octet where both have one of the layer 3 class (B6).
pub fn lacked(input: &[u8], other: &[u8]) -> Bits {
    let start = field(input).map_or(0, |(start, _)| start);
    let reserved = (0..2 + repeaters(input)).map(|group| (seventh(start, group), RESERVED_BITS));
    let pid = layer_3_at(input).filter(|&at| is_of_class(other[at])).map(|at| (at, 0xFF));
    reserved.chain(pid).collect()
}

/// The bits in which two inputs of one length differ.
pub fn differing(one: &[u8], other: &[u8]) -> Bits {
    let pairs = one.iter().zip(other).enumerate();
    pairs.filter(|(_, (one, other))| one != other).map(|(at, (one, other))| (at, one ^ other)).collect()
}

/// Whether all of some bits are among others.
pub fn are_among(some: &[(usize, u8)], others: &[(usize, u8)]) -> bool {
    let others_at = |place: usize| others.iter().filter(|(at, _)| *at == place).fold(0, |all, (_, bits)| all | bits);
    some.iter().all(|(at, bits)| bits & !others_at(*at) == 0)
}
