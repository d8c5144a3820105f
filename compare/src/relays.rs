//! Who relays an input: the stations of its route, some that are almost the one that is due, and addresses that are refused.

use crate::domain;
use crate::flat::{self, FlatAddress, SSID};
use crate::rng::Rng;
use crate::show;
use ax25::frame::Ax25Frame;

/// Our own address, as the relay is given it.
pub struct Own {
    pub callsign: Vec<u8>,
    pub ssid: u8,
}

impl Own {
    pub fn new(callsign: &[u8], ssid: u8) -> Own {
        Own { callsign: callsign.to_vec(), ssid }
    }

    /// All six characters, whether or not they are spaces.
    pub fn of(address: &FlatAddress) -> Own {
        Own::new(&address[..SSID], address[SSID])
    }

    pub fn words(&self) -> String {
        format!("\"{}\"-{}", show::text(&self.callsign), self.ssid)
    }
}

/// Each repeater, its callsign as the Rust has it: without the spaces at its end.
pub fn of_route(frame: &Ax25Frame) -> Vec<Own> {
    let own = |address: &ax25::frame::Address| Own::new(address.callsign().as_bytes(), address.ssid());
    frame.route.iter().map(|entry| own(&entry.repeater)).collect()
}

/// Each repeater, with some of the spaces that pad it; and what is almost the repeater that is due. An input that is refused as an old
/// capture too is relayed by one station and one address that is none.
pub fn around(read: &Result<Ax25Frame, u32>, draw: &mut Rng) -> Vec<Own> {
    let frame = match read {
        Ok(frame) => frame,
        Err(_) => return vec![Own::new(b"RELAY", 0), no_address(flat::station(b"RELAY0\0"), draw.below(3), draw)],
    };
    let mut all = of_route(frame);
    for own in &mut all {
        own.callsign.resize(draw.within(own.callsign.len(), 6), b' ');
    }
    let record = flat::of_frame(frame);
    let [_, _, due] = domain::hops(&record);
    // Where none is due, this is the place's address all the same: NOCALL, or after eight repeaters the last one's.
    let due = flat::repeater(&record, due.min(flat::REPEATERS - 1));
    all.extend([other_ssid(due, draw), other_callsign(due, draw)].map(|address| Own::of(&address)));
    all.extend((0..3).map(|which| no_address(due, which, draw)));
    all
}

pub fn other_ssid(mut address: FlatAddress, draw: &mut Rng) -> FlatAddress {
    address[SSID] ^= draw.within(1, 15) as u8;
    address
}

pub fn other_callsign(mut address: FlatAddress, draw: &mut Rng) -> FlatAddress {
    address[draw.below(6)] ^= 1 << draw.below(7);
    address
}

/// An address that is refused, and would be this one with its callsign cut short, its characters or its SSID cut to their bits.
fn no_address(mut address: FlatAddress, which: usize, draw: &mut Rng) -> Own {
    match which {
        0 => {
            let mut own = Own::of(&address);
            own.callsign.resize(6 + draw.within(1, 3), b' ');
            return own;
        }
        1 => address[draw.below(6)] |= 0x80,
        _ => address[SSID] |= 0x10 << draw.below(4),
    }
    Own::of(&address)
}
