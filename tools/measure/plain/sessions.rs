//! Sessions of TCP and UDP: their phases, and what of their streams is searched.
use std::hash::{Hash, Hasher};

use crate::config::Settings;
use crate::decode::{End, Packet, Protocol, ACK, FIN, RST, SYN};
use crate::detect::Item;
use crate::events::Events;
use crate::lru::Lru;
use crate::streams::Direction;

/// The two ends of a flow, the lower first: both directions have the same key.
#[derive(Clone, Copy, PartialEq, Eq)]
struct Key {
    low: End,
    high: End,
}

impl Hash for Key {
    fn hash<H: Hasher>(&self, hasher: &mut H) {
        hasher.write_u128(u128::from(self.low.bits()) << 64 | u128::from(self.high.bits()));
    }
}

impl Key {
    /// The key of a packet, and whether the lower end sent it.
    fn of(packet: &Packet) -> (Key, bool) {
        let is_low = packet.source <= packet.target;
        let (low, high) = if is_low { (packet.source, packet.target) } else { (packet.target, packet.source) };
        (Key { low, high }, is_low)
    }
}

#[derive(Clone, Copy, PartialEq, Eq, Default)]
enum Phase {
    /// No session.
    #[default]
    Idle,
    Syn,
    SynAck,
    Open,
    Closing,
}

const CLIENT: usize = 0;
const SERVER: usize = 1;

/// A session of TCP: what it has of each side is in the order client, server.
#[derive(Default)]
struct Session {
    /// How many flows began before this one.
    number: u64,
    last: u64,
    phase: Phase,
    is_client_low: bool,
    client_base: u32,
    /// The end of each side's last FIN.
    fins: [Option<u32>; 2],
    streams: Option<Box<[Direction; 2]>>,
}

/// What a packet does to its session.
#[derive(Default)]
struct Change {
    begins: bool,
    /// Where the data of a side begin, where the packet says so.
    bases: [Option<u32>; 2],
    /// Its data and its acknowledgement count.
    counts: bool,
    ends: bool,
}

/// A session of UDP.
#[derive(Clone, Copy, Default)]
struct Talk {
    last: u64,
    is_client_low: bool,
    is_established: bool,
}

pub struct Sessions {
    tcp: Lru<Key, Session>,
    udp: Lru<Key, Talk>,
    max_tcp: usize,
    max_udp: usize,
    tcp_timeout: u64,
    udp_timeout: u64,
    port: u16,
    begun: u64,
    joined: Vec<u8>,
}

impl Sessions {
    pub fn new(settings: &Settings) -> Sessions {
        let &Settings { max_tcp, max_udp, tcp_timeout, udp_timeout, stream_port: port, .. } = settings;
        let (tcp, udp) = (Lru::new(), Lru::new());
        Sessions { tcp, udp, max_tcp, max_udp, tcp_timeout, udp_timeout, port, begun: 0, joined: Vec::new() }
    }

    pub fn udp(&mut self, packet: &Packet, moment: u64, events: &mut Events) {
        let (key, is_low) = Key::of(packet);
        let begun = Talk { last: moment, is_client_low: is_low, is_established: false };
        let place = self.udp.find(&key).unwrap_or_else(|| {
            if let Some(oldest) = self.udp.oldest().filter(|_| self.udp.len() >= self.max_udp) {
                self.udp.remove(oldest);
            }
            self.udp.add(key, begun)
        });
        self.udp.touch(place);
        let talk = &mut self.udp[place];
        if moment > talk.last + self.udp_timeout {
            *talk = begun;
        }
        talk.last = moment;
        talk.is_established |= is_low != talk.is_client_low;
        events.inspect(&item(packet, moment, talk.is_established));
    }

    pub fn tcp(&mut self, packet: &Packet, moment: u64, events: &mut Events) {
        let (key, is_low) = Key::of(packet);
        let place = self.tcp.find(&key).unwrap_or_else(|| {
            if self.tcp.len() >= self.max_tcp {
                self.evict(moment, events);
            }
            self.begun += 1;
            self.tcp.add(key, Session { number: self.begun, ..Session::default() })
        });
        self.tcp.touch(place);
        let session = &mut self.tcp[place];
        let mut search = Search { key, moment, joined: &mut self.joined, events };
        let is_reopened = session.phase == Phase::Closing && packet.flags & (SYN | RST | ACK) == SYN;
        if session.phase != Phase::Idle && (moment > session.last + self.tcp_timeout || is_reopened) {
            session.close(&mut search);
        }
        let change = session.advance(packet, is_low);
        session.last = moment;
        if change.begins {
            let server = if session.is_client_low { key.high } else { key.low };
            session.streams = (server.port() == self.port).then(Box::default);
        }
        let is_established = matches!(session.phase, Phase::Open | Phase::Closing);
        session.follow(&change, packet, is_low, &mut search);
        if change.ends {
            session.close(&mut search);
        }
        search.events.inspect(&item(packet, moment, is_established));
    }

    /// Ends the flow whose last packet is the oldest.
    fn evict(&mut self, moment: u64, events: &mut Events) {
        if let Some(oldest) = self.tcp.oldest() {
            let key = self.tcp.key(oldest);
            self.tcp.remove(oldest).close(&mut Search { key, moment, joined: &mut self.joined, events });
        }
    }

    /// Ends all flows, in the order in which they began.
    pub fn finish(&mut self, moment: u64, events: &mut Events) {
        let mut places: Vec<(u64, u32)> = self.tcp.values().map(|(place, session)| (session.number, place)).collect();
        places.sort_unstable();
        for (_, place) in places {
            let key = self.tcp.key(place);
            self.tcp[place].close(&mut Search { key, moment, joined: &mut self.joined, events });
        }
    }
}

/// A packet as rules see it.
fn item<'a>(packet: &Packet<'a>, moment: u64, is_established: bool) -> Item<'a> {
    let &Packet { protocol, source, target, payload, .. } = packet;
    let flags = (protocol == Protocol::Tcp).then_some(packet.flags);
    Item { protocol, source, target, flags, is_established, payload, moment }
}

/// What the stretches of a flow's streams are searched with.
struct Search<'a> {
    key: Key,
    moment: u64,
    joined: &'a mut Vec<u8>,
    events: &'a mut Events,
}

impl Search<'_> {
    /// Searches what a stream gives out, that the lower or the higher end sent.
    fn give_out(&mut self, stream: &mut Direction, is_low: bool, ack: Option<u32>) {
        let Key { low, high } = self.key;
        let (source, target) = if is_low { (low, high) } else { (high, low) };
        let (protocol, flags, is_established, moment) = (Protocol::Tcp, None, true, self.moment);
        stream.give_out(ack, self.joined, |payload| {
            self.events.inspect(&Item { protocol, source, target, flags, is_established, payload, moment });
        });
    }
}

impl Session {
    /// The phase after a packet (RFC 9293, sections 3.5 and 3.6, as one sees it who may come late), and what the packet does.
    fn advance(&mut self, packet: &Packet, is_low: bool) -> Change {
        let (syn, ack) = (packet.flags & SYN != 0, packet.flags & ACK != 0);
        let mut change = Change::default();
        if packet.flags & RST != 0 {
            change.ends = self.phase != Phase::Idle;
            return change;
        }
        let (was, is_client) = (self.phase, is_low == self.is_client_low);
        let sender = if is_client { CLIENT } else { SERVER };
        let next = packet.seq.wrapping_add(1);
        match was {
            Phase::Idle => return self.begin(packet, is_low),
            Phase::Syn if !is_client && syn && ack && packet.ack == self.client_base => {
                self.phase = Phase::SynAck;
                change.bases[SERVER] = Some(next);
            }
            Phase::Syn if is_client && syn && !ack => {
                self.client_base = next;
                change.bases[CLIENT] = Some(next);
            }
            Phase::Syn if ack && !syn => {
                self.phase = Phase::Open;
                change.bases[SERVER] = Some(if is_client { packet.ack } else { packet.seq });
                change.counts = true;
            }
            Phase::SynAck if !is_client && syn && ack => change.bases[SERVER] = Some(next),
            Phase::SynAck if is_client && ack && !syn => {
                self.phase = Phase::Open;
                change.counts = true;
            }
            Phase::Syn | Phase::SynAck => {}
            Phase::Open => change.counts = !syn,
            Phase::Closing => {
                change.counts = !syn;
                change.ends = !syn && ack && self.fins[1 - sender] == Some(packet.ack);
            }
        }
        if change.counts {
            self.note_fin(packet, sender);
            if was == Phase::Open && self.fins.iter().all(Option::is_some) {
                self.phase = Phase::Closing;
            }
        }
        change
    }

    /// A packet that finds no session, and has no RST.
    fn begin(&mut self, packet: &Packet, is_low: bool) -> Change {
        let (syn, ack) = (packet.flags & SYN != 0, packet.flags & ACK != 0);
        let next = packet.seq.wrapping_add(1);
        self.fins = [None; 2];
        let mut change = Change { begins: true, ..Change::default() };
        if syn && !ack {
            (self.phase, self.is_client_low, self.client_base) = (Phase::Syn, is_low, next);
            change.bases[CLIENT] = Some(next);
        } else if syn {
            (self.phase, self.is_client_low, self.client_base) = (Phase::SynAck, !is_low, packet.ack);
            change.bases = [Some(packet.ack), Some(next)];
        } else {
            // Under way: the client is the end with the larger port, the sender where both are equal.
            let is_client = packet.source.port() >= packet.target.port();
            let sender = if is_client { CLIENT } else { SERVER };
            (self.phase, self.is_client_low) = (Phase::Open, is_low == is_client);
            change.bases[sender] = Some(packet.seq);
            change.bases[1 - sender] = ack.then_some(packet.ack);
            change.counts = true;
            self.note_fin(packet, sender);
        }
        change
    }

    fn note_fin(&mut self, packet: &Packet, sender: usize) {
        if packet.flags & FIN != 0 {
            self.fins[sender] = Some(packet.seq.wrapping_add(packet.payload.len() as u32).wrapping_add(1));
        }
    }

    /// Starts streams where they begin, gives out what is acknowledged, and queues data.
    fn follow(&mut self, change: &Change, packet: &Packet, is_low: bool, search: &mut Search) {
        let Some(streams) = &mut self.streams else { return };
        for (stream, base) in streams.iter_mut().zip(change.bases) {
            if let Some(base) = base {
                stream.start(base);
            }
        }
        if change.counts {
            let sender = if is_low == self.is_client_low { CLIENT } else { SERVER };
            if packet.flags & ACK != 0 {
                search.give_out(&mut streams[1 - sender], !is_low, Some(packet.ack));
            }
            if !packet.payload.is_empty() {
                streams[sender].add(packet.seq, packet.payload);
            }
        }
    }

    /// Ends the session: what is held of its streams is searched, the client's first.
    fn close(&mut self, search: &mut Search) {
        self.phase = Phase::Idle;
        if let Some(mut streams) = self.streams.take() {
            for (side, stream) in streams.iter_mut().enumerate() {
                search.give_out(stream, (side == CLIENT) == self.is_client_low, None);
            }
        }
    }
}
