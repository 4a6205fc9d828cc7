//! What one side of a session sends, until the other side acknowledges it: segments in any order, with overlaps.
use crate::pieces::Pieces;

/// Settings that the configuration doesn't name.
const MOST_BYTES: u64 = 1 << 20;
const MOST_SEGMENTS: u32 = 2621;
const FLUSH_POINT: u64 = 1024;
/// A stretch that is searched has at most as many bytes.
const STRETCH: usize = 16_384;

#[derive(Default)]
pub struct Direction {
    is_started: bool,
    /// The number of the first byte that isn't given out yet, and its place, which never wraps.
    base: u32,
    place: u64,
    /// Segments since the last flush.
    count: u32,
    pieces: Pieces,
}

impl Direction {
    /// Begins anew at a sequence number.
    pub fn start(&mut self, seq: u32) {
        self.is_started = true;
        self.base = seq;
        self.place = 1 << 31; // places before it, too, are at least 0
        self.count = 0;
        self.pieces.clear();
    }

    fn place_of(&self, seq: u32) -> u64 {
        self.place.wrapping_add_signed(i64::from(seq.wrapping_sub(self.base) as i32))
    }

    fn top(&self) -> u64 {
        self.pieces.end().unwrap_or(self.place)
    }

    /// Queues data, unless they are old, or a limit is reached.
    pub fn add(&mut self, seq: u32, bytes: &[u8]) {
        if !self.is_started {
            self.start(seq);
        }
        let start = self.place_of(seq);
        let end = start + bytes.len() as u64;
        if end > self.place && end - self.place <= MOST_BYTES && self.count < MOST_SEGMENTS {
            self.pieces.insert(start, self.place, bytes);
            self.count += 1;
        }
    }

    /// Gives out what is acknowledged, if that is enough, or all that is held; `joined` is for stretches of several pieces.
    pub fn give_out(&mut self, ack: Option<u32>, joined: &mut Vec<u8>, mut give: impl FnMut(&[u8])) {
        let to = ack.map_or(self.top(), |ack| self.place_of(ack).min(self.top()));
        if !self.is_started || ack.is_some() && to < self.place + FLUSH_POINT {
            return;
        }
        self.base = self.base.wrapping_add((to - self.place) as u32);
        self.place = to;
        self.count = 0;
        self.pieces.take(to, joined, |bytes| bytes.chunks(STRETCH).for_each(&mut give));
    }
}
