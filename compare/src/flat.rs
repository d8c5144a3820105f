//! The flat record: a frame as 102 octets, as the crate `probe` lays it out, and the Rust's frame to it and back.
//!
//! Four kinds the Rust does not have: SREJ, SABME, XID and TEST (document 02, M-109). A frame of one of them is here the Rust's frame with
//! `UnknownContent`, which the Rust never reads and writes as it is: the control octet, and info behind it.

use crate::domain;
use ax25::frame::*;

/// An address: six characters padded at the end with spaces, the SSID, and the reserved bits as a number.
pub const ADDRESS: usize = 8;
pub type FlatAddress = [u8; ADDRESS];

/// Where the last two stand in it.
pub const SSID: usize = 6;
pub const RESERVED: usize = 7;

/// Both reserved bits set. The Rust's address has none: text and the default set these, and so does the Rust when it writes
/// (document 02, M-106).
pub const ONES: u8 = 3;

/// The octets of an address in the address field: six characters, and one for all the rest.
pub const GROUP: usize = 7;

pub const FLAT: usize = 102;
pub type Flat = [u8; FLAT];

pub const REPEATERS: usize = 8;
/// A frame's addresses: destination, source, and the eight places.
pub const ADDRESSES: usize = 2 + REPEATERS;
/// The flat address that stands in unused places and beside a refusal.
pub const NOCALL: FlatAddress = *b"NOCALL\0\x03";

/// Where things stand in the record. Destination, source, then eight places of an address and its mark.
pub const DESTINATION: usize = 0;
pub const SOURCE: usize = 8;
pub const ROUTE: usize = 16;
pub const ENTRY: usize = 9;
pub const COUNT: usize = 88;
pub const MARK: usize = 89;
pub const KIND: usize = 90;
pub const PID: usize = 91;
pub const PID_OCTET: usize = 92;
pub const POLL: usize = 93;
pub const RECEIVE: usize = 94;
pub const SEND: usize = 95;
pub const Z: usize = 96;
pub const Y: usize = 97;
pub const X: usize = 98;
pub const W: usize = 99;
pub const REJECTED_RESPONSE: usize = 100;
pub const REJECTED_CONTROL: usize = 101;

pub const I: u8 = 0;
pub const RR: u8 = 1;
pub const RNR: u8 = 2;
pub const REJ: u8 = 3;
pub const SREJ: u8 = 4;
pub const SABM: u8 = 5;
pub const SABME: u8 = 6;
pub const DISC: u8 = 7;
pub const DM: u8 = 8;
pub const UA: u8 = 9;
pub const FRMR: u8 = 10;
pub const UI: u8 = 11;
pub const XID: u8 = 12;
pub const TEST: u8 = 13;
pub const UNKNOWN_CONTENT: u8 = 14;
pub const KINDS: [&str; 15] = [
    "I", "RR", "RNR", "REJ", "SREJ", "SABM", "SABME", "DISC", "DM", "UA", "FRMR", "UI", "XID", "TEST", "UnknownContent",
];

pub const COMMAND: u8 = 0;
pub const RESPONSE: u8 = 1;
pub const ABSENT: u8 = 2;
pub const MARKS: [&str; 3] = ["Command", "Response", "absent"];

/// The cases of the protocol identifier in their order; `Unknown`, the last, has its octet beside it. So has `Layer3Impl` in the port,
/// and not in the Rust (document 02, M-105).
pub const PIDS: [ProtocolIdentifier; 15] = [
    ProtocolIdentifier::Layer3Impl,
    ProtocolIdentifier::X25Plp,
    ProtocolIdentifier::CompressedTcpIp,
    ProtocolIdentifier::UncompressedTcpIp,
    ProtocolIdentifier::SegmentationFragment,
    ProtocolIdentifier::TexnetDatagram,
    ProtocolIdentifier::LinkQuality,
    ProtocolIdentifier::Appletalk,
    ProtocolIdentifier::AppletalkArp,
    ProtocolIdentifier::ArpaIp,
    ProtocolIdentifier::ArpaAddress,
    ProtocolIdentifier::Flexnet,
    ProtocolIdentifier::NetRom,
    ProtocolIdentifier::None,
    ProtocolIdentifier::Escape,
];
pub const PID_LAYER_3: u8 = 0;
pub const PID_UNKNOWN: u8 = 15;

/// Six characters and an SSID, with reserved bits that are ones.
pub fn station(&[a, b, c, d, e, f, ssid]: &[u8; RESERVED]) -> FlatAddress {
    [a, b, c, d, e, f, ssid, ONES]
}

/// The empty callsign with this SSID.
pub fn blank(ssid: u8) -> FlatAddress {
    station(&[b' ', b' ', b' ', b' ', b' ', b' ', ssid])
}

pub fn of_address(address: &Address) -> FlatAddress {
    let mut flat = blank(address.ssid());
    let callsign = address.callsign().as_bytes();
    flat[..callsign.len()].copy_from_slice(callsign);
    flat
}

pub fn has_pid(record: &Flat) -> bool {
    record[KIND] == I || record[KIND] == UI
}

/// Whether a kind has info, or octets of its own (`UnknownContent`).
pub fn has_info(kind: u8) -> bool {
    kind == I || kind >= UI
}

/// Whether the identifier of a record is `Layer3Impl`.
pub fn is_layer_3(record: &Flat) -> bool {
    has_pid(record) && record[PID] == PID_LAYER_3
}

/// The record of a frame of the Rust, with what the port's frame holds besides: these reserved bits, of its addresses in use in their
/// order, and this octet of `Layer3Impl`.
pub fn carrying(mut record: Flat, reserved: impl Iterator<Item = u8>, octet: u8) -> Flat {
    for (at, reserved) in places(&record).zip(reserved) {
        record[at + RESERVED] = reserved;
    }
    if is_layer_3(&record) {
        record[PID_OCTET] = octet;
    }
    record
}

/// The record of a frame with at most eight repeaters. Info is no part of it.
pub fn of_frame(frame: &Ax25Frame) -> Flat {
    let mut flat = [0; FLAT];
    flat[DESTINATION..SOURCE].copy_from_slice(&of_address(&frame.destination));
    flat[SOURCE..ROUTE].copy_from_slice(&of_address(&frame.source));
    for i in 0..REPEATERS {
        let at = ROUTE + ENTRY * i;
        let entry = frame.route.get(i);
        flat[at..at + ADDRESS].copy_from_slice(&entry.map_or(NOCALL, |e| of_address(&e.repeater)));
        flat[at + ADDRESS] = entry.map_or(0, |e| u8::from(e.has_repeated));
    }
    flat[COUNT] = frame.route.len() as u8;
    flat[MARK] = match frame.command_or_response {
        Some(CommandResponse::Command) => COMMAND,
        Some(CommandResponse::Response) => RESPONSE,
        None => ABSENT,
    };
    put_content(&mut flat, &frame.content);
    flat
}

fn put_content(flat: &mut Flat, content: &FrameContent) {
    match content {
        FrameContent::Information(i) => {
            put_pid(flat, I, &i.pid);
            put_numbers(flat, i.poll, i.receive_sequence, i.send_sequence);
        }
        FrameContent::ReceiveReady(s) => put_supervisory(flat, RR, s.poll_or_final, s.receive_sequence),
        FrameContent::ReceiveNotReady(s) => put_supervisory(flat, RNR, s.poll_or_final, s.receive_sequence),
        FrameContent::Reject(s) => put_supervisory(flat, REJ, s.poll_or_final, s.receive_sequence),
        FrameContent::SetAsynchronousBalancedMode(u) => put_supervisory(flat, SABM, u.poll, 0),
        FrameContent::Disconnect(u) => put_supervisory(flat, DISC, u.poll, 0),
        FrameContent::DisconnectedMode(u) => put_supervisory(flat, DM, u.final_bit, 0),
        FrameContent::UnnumberedAcknowledge(u) => put_supervisory(flat, UA, u.final_bit, 0),
        FrameContent::FrameReject(f) => put_frmr(flat, f),
        FrameContent::UnnumberedInformation(u) => {
            put_pid(flat, UI, &u.pid);
            put_numbers(flat, u.poll_or_final, 0, 0);
        }
        FrameContent::UnknownContent(u) => put_unknown(flat, &u.raw),
    }
}

/// Content that the Rust can't have read: one of the kinds that it does not know, by its control octet, or none at all.
fn put_unknown(flat: &mut Flat, raw: &[u8]) {
    match raw.first().and_then(|&control| Some((domain::added(control)?.kind, control))) {
        Some((kind, control)) => put_supervisory(flat, kind, domain::poll_of(control), domain::receive_of(kind, control)),
        None => flat[KIND] = UNKNOWN_CONTENT,
    }
}

fn put_pid(flat: &mut Flat, kind: u8, pid: &ProtocolIdentifier) {
    flat[KIND] = kind;
    match pid {
        ProtocolIdentifier::Unknown(octet) => {
            flat[PID] = PID_UNKNOWN;
            flat[PID_OCTET] = *octet;
        }
        named => flat[PID] = PIDS.iter().position(|p| p == named).expect("every case but Unknown is listed") as u8,
    }
}

fn put_numbers(flat: &mut Flat, poll: bool, receive: u8, send: u8) {
    flat[POLL] = u8::from(poll);
    flat[RECEIVE] = receive;
    flat[SEND] = send;
}

fn put_supervisory(flat: &mut Flat, kind: u8, poll: bool, receive: u8) {
    flat[KIND] = kind;
    put_numbers(flat, poll, receive, 0);
}

fn put_frmr(flat: &mut Flat, f: &FrameReject) {
    flat[KIND] = FRMR;
    put_numbers(flat, f.final_bit, f.receive_sequence, f.send_sequence);
    flat[Z] = u8::from(f.z);
    flat[Y] = u8::from(f.y);
    flat[X] = u8::from(f.x);
    flat[W] = u8::from(f.w);
    flat[REJECTED_RESPONSE] = u8::from(f.command_response == CommandResponse::Response);
    flat[REJECTED_CONTROL] = f.rejected_control_field_raw;
}

/// The info of a frame that was read; none where its kind has none.
pub fn info_of(frame: &Ax25Frame) -> Option<&[u8]> {
    match &frame.content {
        FrameContent::Information(i) => Some(&i.info),
        FrameContent::UnnumberedInformation(u) => Some(&u.info),
        FrameContent::UnknownContent(u) => {
            let (&control, info) = u.raw.split_first().expect("a control octet");
            domain::added(control).filter(|added| has_info(added.kind)).map(|_| info)
        }
        _ => None,
    }
}

/// The Rust's addresses of these, of any seven-bit characters and without reserved bits. Its fields are private, so they are taken out
/// of a decoded frame. The frame's destination is not among them, because the Rust skips a leading character 0 there as a null octet.
pub fn addresses(flat: &[FlatAddress]) -> Vec<Address> {
    let mut octets = vec![b'X' << 1; GROUP];
    for address in flat {
        octets.extend(address[..GROUP].iter().map(|c| c << 1));
    }
    *octets.last_mut().expect("the destination is there") |= 1;
    octets.push(0x01);
    let frame = Ax25Frame::from_bytes(&octets).expect("an RR frame with a source is accepted");
    std::iter::once(frame.source).chain(frame.route.into_iter().map(|entry| entry.repeater)).collect()
}

pub fn address_at(flat: &Flat, at: usize) -> FlatAddress {
    let mut address = [0; ADDRESS];
    address.copy_from_slice(&flat[at..at + ADDRESS]);
    address
}

/// The repeater at a place of the route.
pub fn repeater(flat: &Flat, place: usize) -> FlatAddress {
    address_at(flat, ROUTE + ENTRY * place)
}

/// Where the addresses of a record with so many repeaters stand: destination, source, and those of its route.
pub fn places_of(count: usize) -> impl Iterator<Item = usize> {
    [DESTINATION, SOURCE].into_iter().chain((0..count).map(|i| ROUTE + ENTRY * i))
}

/// The same of the addresses in use: as many repeaters as the record counts, eight at most.
pub fn places(flat: &Flat) -> impl Iterator<Item = usize> {
    places_of(usize::from(flat[COUNT]).min(REPEATERS))
}

/// The addresses in use.
pub fn in_use(flat: &Flat) -> Vec<FlatAddress> {
    places(flat).map(|at| address_at(flat, at)).collect()
}

/// The reserved bits of the addresses in use.
pub fn reserved(flat: &Flat) -> impl Iterator<Item = u8> + '_ {
    places(flat).map(|at| flat[at + RESERVED])
}

/// The Rust's frame of a record that it can hold, or could but for its kind (see `domain::record_number`), with its info.
pub fn to_frame(flat: &Flat, info: &[u8]) -> Ax25Frame {
    let mut known = addresses(&in_use(flat)).into_iter();
    let destination = known.next().expect("a destination");
    let source = known.next().expect("a source");
    let marks = (0..REPEATERS).map(|i| flat[ROUTE + ENTRY * i + ADDRESS] != 0);
    let route = known.zip(marks).map(|(repeater, has_repeated)| RouteEntry { repeater, has_repeated }).collect();
    let command_or_response = match flat[MARK] {
        COMMAND => Some(CommandResponse::Command),
        RESPONSE => Some(CommandResponse::Response),
        _ => None,
    };
    Ax25Frame { source, destination, route, command_or_response, content: to_content(flat, info) }
}

/// The one form of a record that is read as this frame of the Rust: the frame's record, but for the places not in use, the reserved
/// bits and the octet of a layer 3 identifier, which only the port's frame has, and the content of a kind that the Rust does not have. A
/// flag is 0 or 1 in those places too.
pub fn settled(flat: &Flat, frame: &Ax25Frame) -> Flat {
    let mut settled = of_frame(frame);
    if let FrameContent::UnknownContent(_) = frame.content {
        settled[KIND..].copy_from_slice(&settled_content(flat));
    }
    for i in frame.route.len()..REPEATERS {
        let (at, mark) = (ROUTE + ENTRY * i, ROUTE + ENTRY * i + ADDRESS);
        settled[at..mark].copy_from_slice(&flat[at..mark]);
        settled[mark] = u8::from(flat[mark] != 0);
    }
    carrying(settled, reserved(flat), flat[PID_OCTET])
}

/// The one form of content of a kind that the Rust does not have: P/F, and N(R) where it has that.
fn settled_content(flat: &Flat) -> [u8; FLAT - KIND] {
    let mut settled = [0; FLAT];
    settled[KIND] = flat[KIND].min(UNKNOWN_CONTENT);
    if flat[KIND] < UNKNOWN_CONTENT {
        settled[POLL] = u8::from(flat[POLL] != 0);
    }
    if flat[KIND] == SREJ {
        settled[RECEIVE] = flat[RECEIVE];
    }
    let mut content = [0; FLAT - KIND];
    content.copy_from_slice(&settled[KIND..]);
    content
}

fn to_content(flat: &Flat, info: &[u8]) -> FrameContent {
    let info = info.to_vec();
    let (poll, receive_sequence, send_sequence) = (flat[POLL] != 0, flat[RECEIVE], flat[SEND]);
    let poll_or_final = poll;
    let final_bit = poll;
    match flat[KIND] {
        I => FrameContent::Information(Information { pid: to_pid(flat), info, receive_sequence, send_sequence, poll }),
        RR => FrameContent::ReceiveReady(ReceiveReady { receive_sequence, poll_or_final }),
        RNR => FrameContent::ReceiveNotReady(ReceiveNotReady { receive_sequence, poll_or_final }),
        REJ => FrameContent::Reject(Reject { receive_sequence, poll_or_final }),
        SABM => FrameContent::SetAsynchronousBalancedMode(SetAsynchronousBalancedMode { poll }),
        DISC => FrameContent::Disconnect(Disconnect { poll }),
        DM => FrameContent::DisconnectedMode(DisconnectedMode { final_bit }),
        UA => FrameContent::UnnumberedAcknowledge(UnnumberedAcknowledge { final_bit }),
        FRMR => FrameContent::FrameReject(to_frmr(flat)),
        UI => FrameContent::UnnumberedInformation(UnnumberedInformation { pid: to_pid(flat), info, poll_or_final }),
        kind => {
            let control = domain::added_control(kind, poll, receive_sequence);
            FrameContent::UnknownContent(UnknownContent { raw: control.into_iter().chain(info).collect() })
        }
    }
}

fn to_pid(flat: &Flat) -> ProtocolIdentifier {
    match PIDS.get(usize::from(flat[PID])) {
        Some(named) => named.clone(),
        None => ProtocolIdentifier::Unknown(flat[PID_OCTET]),
    }
}

fn to_frmr(flat: &Flat) -> FrameReject {
    FrameReject {
        final_bit: flat[POLL] != 0,
        rejected_control_field_raw: flat[REJECTED_CONTROL],
        z: flat[Z] != 0,
        y: flat[Y] != 0,
        x: flat[X] != 0,
        w: flat[W] != 0,
        receive_sequence: flat[RECEIVE],
        send_sequence: flat[SEND],
        command_response: match flat[REJECTED_RESPONSE] {
            0 => CommandResponse::Command,
            _ => CommandResponse::Response,
        },
    }
}
