//! One KISS packet, read and written, and a stream of them: the laboratory's own readers and writer, from document 02's words (M-103,
//! M-104). The Rust has none.

pub const FEND: u8 = 0xC0;
pub const FESC: u8 = 0xDB;
pub const TFEND: u8 = 0xDC;
pub const TFESC: u8 = 0xDD;
/// Ports are 0 to 11.
pub const PORTS: u8 = 12;

/// The port and the data, or the number of the refusal.
pub type Read = Result<(u8, Vec<u8>), u32>;

/// Reads a packet from left to right, so that the refusal is the first one met.
pub fn read(packet: &[u8]) -> Read {
    let mut left = packet.iter().copied();
    if left.next() != Some(FEND) {
        return Err(51);
    }
    let (mut port, mut data) = (None, Vec::new());
    loop {
        let octet = match left.next() {
            None => return Err(53),
            Some(FEND) => break,
            Some(FESC) => unescaped(left.next())?,
            Some(octet) => octet,
        };
        match port {
            None => port = Some(port_of(octet)?),
            Some(_) => data.push(octet),
        }
    }
    let port = port.ok_or(55_u32)?;
    if left.next().is_some() {
        return Err(53);
    }
    Ok((port, data))
}

fn unescaped(octet: Option<u8>) -> Result<u8, u32> {
    match octet {
        Some(TFEND) => Ok(FEND),
        Some(TFESC) => Ok(FESC),
        _ => Err(52),
    }
}

/// The port of a type octet, which stands in its high half; the command in the low half is 0, data.
fn port_of(kind: u8) -> Result<u8, u32> {
    match (kind >> 4, kind & 0x0F) {
        (_, 1..) => Err(54),
        (PORTS.., _) => Err(56),
        (port, _) => Ok(port),
    }
}

/// How many octets of data a packet of a stream may have.
pub const LONGEST: usize = 1024;

/// What has come of a stream.
#[derive(Default)]
pub struct Stream {
    /// The packets that were given out, each with how many octets of the stream there were when it was complete.
    pub packets: Vec<(usize, (u8, Vec<u8>))>,
    /// Those that were dropped, each by the number that `read` refuses it by, and 24 where it is too long.
    pub dropped: Vec<u32>,
    /// The state that is left: what was read last, the port and the data.
    pub phase: u8,
    pub port: u8,
    pub data: Vec<u8>,
}

/// Reads a stream. A packet stands between a C0 and the next one, whatever came before it, and is given out where `read` accepts it and
/// it is not too long; nothing between two C0 is no packet, and every other one is dropped.
pub fn stream(octets: &[u8]) -> Stream {
    let mut stream = Stream::default();
    stream.read(octets);
    stream
}

/// Reads what comes after a C0 that left this port and this data: that C0 opens a packet. It is none of these octets, and is not counted.
pub fn stream_on(port: u8, data: &[u8], octets: &[u8]) -> Stream {
    let mut stream = Stream { port, data: data.to_vec(), ..Stream::default() };
    stream.read(&[&[FEND], octets].concat());
    stream.packets.iter_mut().for_each(|(end, _)| *end -= 1);
    stream
}

/// `read`, and 24 for a packet that is too long.
fn read_fitting(packet: &[u8]) -> Read {
    read(packet).and_then(|(port, data)| if data.len() > LONGEST { Err(24) } else { Ok((port, data)) })
}

impl Stream {
    fn read(&mut self, octets: &[u8]) {
        let delimiters: Vec<usize> = (0..octets.len()).filter(|&at| octets[at] == FEND).collect();
        for pair in delimiters.windows(2) {
            if self.took(read_fitting(&octets[pair[0]..=pair[1]])) {
                self.packets.push((pair[1] + 1, (self.port, self.data.clone())));
            }
        }
        if let Some(&last) = delimiters.last() {
            self.open(&octets[last..]);
        }
    }

    /// Whether a packet was read. One that is dropped leaves no port and no data; where there was none, those of the one before it stay.
    fn took(&mut self, read: Read) -> bool {
        match read {
            Ok((port, data)) => {
                self.port = port;
                self.data = data;
                return true;
            }
            Err(55) => {}
            Err(number) => {
                self.dropped.push(number);
                self.port = 0;
                self.data.clear();
            }
        }
        false
    }

    /// The count that is owed where it was `before`.
    pub fn count(&self, before: u16) -> u16 {
        (self.dropped.len() + usize::from(before)).min(u16::MAX.into()) as u16
    }

    /// The packet that no C0 has closed. A DB at its end waits for its second octet; what stands before that, closed here, is read, or
    /// is nothing as yet, or has shown by now that the packet is to be dropped.
    fn open(&mut self, packet: &[u8]) {
        let (shown, waits) = packet.strip_suffix(&[FESC]).map_or((packet, false), |shown| (shown, true));
        let read = read_fitting(&[shown, &[FEND]].concat());
        self.phase = match (&read, waits) {
            (Ok(_), false) => 2,
            (Ok(_), true) => 3,
            (Err(55), false) => 1,
            (Err(55), true) => 5,
            (Err(_), _) => 4,
        };
        self.took(read);
    }
}

/// The packet of a port and data, or the number of the refusal.
pub fn write(port: u8, data: &[u8]) -> Result<Vec<u8>, u32> {
    if port >= PORTS {
        return Err(56);
    }
    Ok(packet(port << 4, data))
}

/// The packet of any type octet, one that no reader takes too.
pub fn packet(kind: u8, data: &[u8]) -> Vec<u8> {
    let mut packet = vec![FEND];
    for &octet in [kind].iter().chain(data) {
        match octet {
            FEND => packet.extend([FESC, TFEND]),
            FESC => packet.extend([FESC, TFESC]),
            _ => packet.push(octet),
        }
    }
    packet.push(FEND);
    packet
}
