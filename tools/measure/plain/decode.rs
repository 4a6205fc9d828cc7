//! Ethernet, IPv4, TCP and UDP, with their checksums. What is broken, and what has a wrong checksum, is passed over; so are
//! frames of other kinds (tags, IPv6) and other protocols, since no rule that is read here could match them.

const ETHERNET: usize = 14;
const IPV4: u16 = 0x0800;
pub const TCP: u8 = 6;
pub const UDP: u8 = 17;
pub const FIN: u8 = 1;
pub const SYN: u8 = 2;
pub const RST: u8 = 4;
pub const ACK: u8 = 16;

/// An IPv4 packet: of a fragment `data` is its part of the datagram.
pub struct Ip<'a> {
    pub source: u32,
    pub target: u32,
    pub protocol: u8,
    pub ttl: u8,
    pub ident: u16,
    pub more: bool,
    /// In bytes.
    pub offset: usize,
    pub data: &'a [u8],
}

/// An address and a port, in the order of addresses, then ports.
#[derive(Clone, Copy, PartialEq, Eq, PartialOrd, Ord)]
pub struct End(u64);

impl End {
    pub fn new(address: u32, port: u16) -> End {
        End(u64::from(address) << 16 | u64::from(port))
    }

    pub fn address(self) -> u32 {
        (self.0 >> 16) as u32
    }

    pub fn port(self) -> u16 {
        self.0 as u16
    }

    pub fn bits(self) -> u64 {
        self.0
    }
}

#[derive(Clone, Copy, PartialEq, Eq)]
pub enum Protocol {
    Tcp,
    Udp,
}

pub struct Packet<'a> {
    pub protocol: Protocol,
    pub source: End,
    pub target: End,
    pub flags: u8,
    pub seq: u32,
    pub ack: u32,
    pub payload: &'a [u8],
}

fn short(bytes: &[u8], at: usize) -> u16 {
    u16::from_be_bytes([bytes[at], bytes[at + 1]])
}

fn long(bytes: &[u8], at: usize) -> u32 {
    u32::from_be_bytes([bytes[at], bytes[at + 1], bytes[at + 2], bytes[at + 3]])
}

/// A sum of the 16-bit words modulo 65535, in the order of this machine's bytes (RFC 1071): a word of 32 bits counts as its
/// two of 16. An odd last byte is padded with zero.
fn sum(bytes: &[u8]) -> u64 {
    let words = bytes.chunks_exact(4);
    let rest = words.remainder();
    let mut last = [0; 4];
    last[..rest.len()].copy_from_slice(rest);
    let total: u64 = words.map(|word| u64::from(u32::from_ne_bytes(word.try_into().unwrap()))).sum();
    total + u64::from(u32::from_ne_bytes(last))
}

fn is_right(sum: u64) -> bool {
    sum != 0 && sum % 65535 == 0
}

/// The sum of the header that TCP and UDP put before theirs for the checksum.
fn pseudo(ip: &Ip, length: usize) -> u64 {
    u64::from(ip.source.to_be()) + u64::from(ip.target.to_be()) + u64::from(u16::from(ip.protocol).to_be())
        + u64::from((length as u16).to_be())
}

pub fn ip(frame: &[u8]) -> Option<Ip<'_>> {
    if frame.len() < ETHERNET + 20 || short(frame, 12) != IPV4 {
        return None;
    }
    let packet = &frame[ETHERNET..];
    let (size, total) = (usize::from(packet[0] & 15) * 4, usize::from(short(packet, 2)));
    if packet[0] >> 4 != 4 || size < 20 || total < size || total > packet.len() || !is_right(sum(&packet[..size])) {
        return None;
    }
    let part = short(packet, 6);
    Some(Ip {
        source: long(packet, 12),
        target: long(packet, 16),
        protocol: packet[9],
        ttl: packet[8],
        ident: short(packet, 4),
        more: part & 0x2000 != 0,
        offset: usize::from(part & 0x1FFF) * 8,
        data: &packet[size..total],
    })
}

/// The packet of TCP or UDP that these bytes are: those after the header, or those of a whole datagram.
pub fn packet<'a>(ip: &Ip, data: &'a [u8]) -> Option<Packet<'a>> {
    match ip.protocol {
        TCP => tcp(ip, data),
        UDP => udp(ip, data),
        _ => None,
    }
}

fn ends(ip: &Ip, data: &[u8]) -> (End, End) {
    (End::new(ip.source, short(data, 0)), End::new(ip.target, short(data, 2)))
}

fn tcp<'a>(ip: &Ip, data: &'a [u8]) -> Option<Packet<'a>> {
    if data.len() < 20 {
        return None;
    }
    let size = usize::from(data[12] >> 4) * 4;
    if size < 20 || size > data.len() || !is_right(pseudo(ip, data.len()) + sum(data)) {
        return None;
    }
    let (source, target) = ends(ip, data);
    let (flags, seq, ack) = (data[13], long(data, 4), long(data, 8));
    Some(Packet { protocol: Protocol::Tcp, source, target, flags, seq, ack, payload: &data[size..] })
}

fn udp<'a>(ip: &Ip, data: &'a [u8]) -> Option<Packet<'a>> {
    if data.len() < 8 {
        return None;
    }
    let length = usize::from(short(data, 4));
    if length < 8 || length > data.len() {
        return None;
    }
    let data = &data[..length];
    if short(data, 6) != 0 && !is_right(pseudo(ip, length) + sum(data)) {
        return None;
    }
    let (source, target) = ends(ip, data);
    Some(Packet { protocol: Protocol::Udp, source, target, flags: 0, seq: 0, ack: 0, payload: &data[8..] })
}
