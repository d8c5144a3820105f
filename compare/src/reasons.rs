//! Why an input is not canonical, and what a refusal is about (document 02, M-110): from that paper's words on the octets alone. Neither the
//! Rust nor the port is asked, and all of it is of the short mode, the Rust's.

use crate::domain::{self, P_F};
use crate::flat::{ADDRESSES, GROUP};

/// What `ax25_reason` says of an accepted input: the first that holds.
#[derive(Clone, Copy, PartialEq, Debug)]
pub enum Reason {
    None,
    Leftover,
    Marks,
    Tail,
    Fixed,
}

/// Each by its number, with the word that the dumper prints.
pub const REASONS: [(Reason, &str); 5] = [
    (Reason::None, "none"),
    (Reason::Leftover, "leftover"),
    (Reason::Marks, "marks"),
    (Reason::Tail, "tail"),
    (Reason::Fixed, "fixed"),
];

/// What it says of a refused one.
pub const REFUSED: u32 = REASONS.len() as u32;

/// All that `ax25_reason` gives: number and place are 0 but for a refusal.
#[derive(Clone, Copy, PartialEq, Debug)]
pub struct Why {
    pub answer: u32,
    pub number: u32,
    pub place: usize,
}

impl Reason {
    /// The first that holds of an accepted input.
    pub fn of(input: &[u8]) -> Reason {
        let reason = REASONS[1..].iter().map(|&(reason, _)| reason).find(|reason| reason.holds(input)).unwrap_or(Reason::None);
        #[cfg(feature = "faults")]
        let reason = crate::faults::misworded(reason);
        reason
    }

    /// Whether it holds of an accepted input, whatever else does.
    pub fn holds(self, input: &[u8]) -> bool {
        let (field, content) = input.split_at(span(input));
        match self {
            Reason::None => false,
            Reason::Leftover => field.len() % GROUP != 0,
            Reason::Marks => (field[domain::seventh(0, 0)] ^ field[domain::seventh(0, 1)]) & 0x80 == 0,
            Reason::Tail => has_tail(content),
            // In the short mode FRMR alone has bits that are ignored.
            Reason::Fixed => domain::excepted(input).iter().any(|&(at, bits)| input[at] & bits != 0),
        }
    }
}

impl Why {
    /// What is owed to an accepted input that has this reason.
    pub fn accepted(reason: Reason) -> Why {
        Why { answer: reason as u32, number: 0, place: 0 }
    }

    /// What is owed to an input that decoding refuses by this number. The place is none, the end of the address field, where a ninth
    /// repeater starts, or the control octet.
    pub fn refused(input: &[u8], number: u32) -> Why {
        let place = match number {
            1 | 2 | 10 => 0,
            3 | 4 => span(input) - 1,
            9 => GROUP * ADDRESSES,
            _ => span(input),
        };
        Why { answer: REFUSED, number, place }
    }
}

/// How long the address field of an input is that starts with it; 0 where it has none.
pub fn span(input: &[u8]) -> usize {
    domain::field(input).map_or(0, |(_, end)| end + 1)
}

/// Whether octets follow the control octet of a kind without info: of an S, and of a U but for UI, XID, TEST and FRMR.
fn has_tail(content: &[u8]) -> bool {
    let has_none = match content[0] & 3 {
        1 => true,
        3 => ![0x03, 0xAF, 0xE3, 0x87].contains(&(content[0] & !P_F)),
        _ => false,
    };
    has_none && content.len() > 1
}
