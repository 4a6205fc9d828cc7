//! Bytes at places, out of segments or fragments that may overlap: where two do, the policy `linux` says whose byte stays.
use std::collections::VecDeque;

/// What is kept of one segment, or a part of that.
struct Piece {
    start: u64,
    /// Where the whole segment begins: the policy compares whole segments.
    whole: u64,
    bytes: Vec<u8>,
}

impl Piece {
    fn end(&self) -> u64 {
        self.start + self.bytes.len() as u64
    }

    /// The part from a place on; the piece keeps what is before it.
    fn split_off(&mut self, place: u64) -> Piece {
        Piece { start: place, whole: self.whole, bytes: self.bytes.split_off((place - self.start) as usize) }
    }
}

/// Pieces in order, none of which overlaps another.
#[derive(Default)]
pub struct Pieces(VecDeque<Piece>);

impl Pieces {
    pub fn clear(&mut self) {
        self.0.clear();
    }

    /// The greatest end, if there is a piece.
    pub fn end(&self) -> Option<u64> {
        self.0.back().map(Piece::end)
    }

    /// Adds what a segment has from the floor on.
    pub fn insert(&mut self, whole: u64, floor: u64, bytes: &[u8]) {
        let start = whole.max(floor);
        let part = |from: u64, to: u64| Piece {
            start: from,
            whole,
            bytes: bytes[(from - whole) as usize..(to - whole) as usize].to_vec(),
        };
        let end = whole + bytes.len() as u64;
        if self.end().map_or(true, |last| last <= start) {
            self.0.push_back(part(start, end));
        } else {
            self.merge(start, end, whole, part);
        }
    }

    /// Adds a segment among others. Of two, the later one stays where it begins at the same place, or before the other.
    fn merge(&mut self, start: u64, end: u64, whole: u64, part: impl Fn(u64, u64) -> Piece) {
        let old = std::mem::take(&mut self.0);
        let mut from = start; // up to here the new segment's bytes are added, or lost
        for mut piece in old {
            if piece.end() <= start {
                self.0.push_back(piece);
            } else if piece.start >= end {
                if from < end {
                    self.0.push_back(part(from, end));
                    from = end;
                }
                self.0.push_back(piece);
            } else if whole <= piece.whole {
                let after = (piece.end() > end).then(|| piece.split_off(end));
                if piece.start < start {
                    piece.bytes.truncate((start - piece.start) as usize);
                    self.0.push_back(piece);
                }
                if let Some(after) = after {
                    self.0.push_back(part(from, end));
                    from = end;
                    self.0.push_back(after);
                }
            } else {
                if from < piece.start {
                    self.0.push_back(part(from, piece.start));
                }
                from = piece.end().min(end);
                self.0.push_back(piece);
            }
        }
        if from < end {
            self.0.push_back(part(from, end));
        }
    }

    /// Whether each place below this one has a byte, from 0 on; if so they are written.
    pub fn all_below(&self, end: u64, out: &mut Vec<u8>) -> bool {
        let mut next = 0;
        for piece in self.0.iter() {
            if next >= end || piece.start != next {
                break;
            }
            next = piece.end();
        }
        if next < end {
            return false;
        }
        out.clear();
        for piece in self.0.iter().take_while(|piece| piece.start < end) {
            out.extend_from_slice(&piece.bytes[..(end.min(piece.end()) - piece.start) as usize]);
        }
        true
    }

    /// Takes all below a place, and gives each stretch of bytes without a gap; `joined` is for those of several pieces.
    pub fn take(&mut self, to: u64, joined: &mut Vec<u8>, mut give: impl FnMut(&[u8])) {
        while let Some(first) = self.take_first(to) {
            let mut end = first.end();
            if !self.begins_at(end, to) {
                give(&first.bytes);
                continue;
            }
            joined.clear();
            joined.extend_from_slice(&first.bytes);
            while self.begins_at(end, to) {
                if let Some(next) = self.take_first(to) {
                    joined.extend_from_slice(&next.bytes);
                    end = next.end();
                }
            }
            give(joined);
        }
    }

    fn begins_at(&self, place: u64, to: u64) -> bool {
        place < to && self.0.front().map_or(false, |piece| piece.start == place)
    }

    /// The first piece, or what of it is below a place.
    fn take_first(&mut self, to: u64) -> Option<Piece> {
        let mut first = self.0.pop_front()?;
        if first.start >= to {
            self.0.push_front(first);
            return None;
        }
        if first.end() > to {
            let rest = first.split_off(to);
            self.0.push_front(rest);
        }
        Some(first)
    }
}
