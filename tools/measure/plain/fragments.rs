//! Datagrams out of fragments (RFC 791, section 3.2), by the policy `linux`.
use crate::decode::Ip;
use crate::lru::Lru;
use crate::pieces::Pieces;

/// Seconds from a datagram's first fragment, where the configuration says nothing else: in microseconds.
const TIMEOUT: u64 = 60_000_000;
const LONGEST: usize = 65_535;

/// Source, destination, identification and protocol.
type Key = (u32, u32, u16, u8);

/// The fragments of a datagram.
#[derive(Default)]
struct Tracker {
    /// When the first one came.
    first: u64,
    /// The datagram's length: where the first fragment ends that says that no more follow.
    end: Option<usize>,
    count: usize,
    pieces: Pieces,
}

pub struct Fragments {
    trackers: Lru<Key, Tracker>,
    most: usize,
    held: usize,
}

impl Fragments {
    pub fn new(most: usize) -> Self {
        Fragments { trackers: Lru::new(), most, held: 0 }
    }

    /// Takes a fragment. Where it completes its datagram, that is written.
    pub fn accept(&mut self, ip: &Ip, moment: u64, datagram: &mut Vec<u8>) -> bool {
        if ip.ttl == 0 || ip.data.is_empty() || ip.offset + ip.data.len() > LONGEST {
            return false;
        }
        let key = (ip.source, ip.target, ip.ident, ip.protocol);
        let mut place = self.trackers.find(&key);
        if let Some(it) = place.filter(|&it| moment > self.trackers[it].first + TIMEOUT) {
            self.drop(it);
            place = None;
        }
        while self.held >= self.most {
            let Some(oldest) = self.trackers.oldest() else { break };
            self.drop(oldest);
            place = place.filter(|&it| it != oldest);
        }
        let place = match place {
            Some(place) => {
                self.trackers.touch(place);
                place
            }
            None => self.trackers.add(key, Tracker { first: moment, ..Tracker::default() }),
        };
        self.held += 1;
        let tracker = &mut self.trackers[place];
        tracker.count += 1;
        tracker.pieces.insert(ip.offset as u64, 0, ip.data);
        if !ip.more && tracker.end.is_none() {
            tracker.end = Some(ip.offset + ip.data.len());
        }
        let is_whole = tracker.end.map_or(false, |end| tracker.pieces.all_below(end as u64, datagram));
        if is_whole {
            self.drop(place);
        }
        is_whole
    }

    fn drop(&mut self, place: u32) {
        self.held -= self.trackers.remove(place).count;
    }
}
