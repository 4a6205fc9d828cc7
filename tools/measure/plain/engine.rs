//! A record's way: decoded, a fragment put to its datagram, a packet to its session.
use crate::capture::Capture;
use crate::config::Settings;
use crate::decode::{self, Packet, Protocol};
use crate::detect::Detector;
use crate::events::Events;
use crate::fragments::Fragments;
use crate::rules::Rule;
use crate::sessions::Sessions;

pub struct Engine {
    fragments: Fragments,
    sessions: Sessions,
    events: Events,
    datagram: Vec<u8>,
    /// The moment of the last record.
    last: u64,
}

impl Engine {
    pub fn new(settings: &Settings, rules: Vec<Rule>) -> Engine {
        Engine {
            fragments: Fragments::new(settings.max_frags),
            sessions: Sessions::new(settings),
            events: Events::new(settings, Detector::new(rules)),
            datagram: Vec::new(),
            last: 0,
        }
    }

    /// Inspects all records.
    pub fn run(&mut self, capture: &mut Capture) -> Result<(), String> {
        while let Some(record) = capture.next()? {
            self.last = record.moment;
            self.record(record.moment, record.frame);
        }
        Ok(())
    }

    fn record(&mut self, moment: u64, frame: &[u8]) {
        let Some(ip) = decode::ip(frame) else { return };
        if !ip.more && ip.offset == 0 {
            if let Some(packet) = decode::packet(&ip, ip.data) {
                packet_of(&mut self.sessions, &mut self.events, &packet, moment);
            }
        } else if self.fragments.accept(&ip, moment, &mut self.datagram) {
            // By itself a fragment is an item that rules of TCP and UDP never match.
            if let Some(packet) = decode::packet(&ip, &self.datagram) {
                packet_of(&mut self.sessions, &mut self.events, &packet, moment);
            }
        }
    }

    /// Ends the sessions that are left, and writes what is not written yet.
    pub fn finish(&mut self) -> Result<(), String> {
        self.sessions.finish(self.last, &mut self.events);
        self.events.finish()
    }
}

fn packet_of(sessions: &mut Sessions, events: &mut Events, packet: &Packet, moment: u64) {
    match packet.protocol {
        Protocol::Tcp => sessions.tcp(packet, moment, events),
        Protocol::Udp => sessions.udp(packet, moment, events),
    }
}
