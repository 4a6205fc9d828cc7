//! A classic capture, read in blocks: each record is lent from the block that it is in.
//! Read is what traffic writes: least significant byte first, microseconds, Ethernet. Other captures are refused.
use std::fs::File;
use std::io::{ErrorKind, Read};

const BLOCK: usize = 64 << 10;
const FILE_HEAD: usize = 24;
const RECORD_HEAD: usize = 16;
const LONGEST: usize = 262_144;

pub struct Record<'a> {
    /// Microseconds.
    pub moment: u64,
    pub frame: &'a [u8],
}

pub struct Capture {
    name: String,
    file: File,
    block: Vec<u8>,
    /// What of the block isn't read yet.
    start: usize,
    end: usize,
}

fn number(bytes: &[u8], at: usize) -> u32 {
    u32::from_le_bytes(bytes[at..at + 4].try_into().unwrap())
}

impl Capture {
    pub fn open(name: &str) -> Result<Capture, String> {
        let file = File::open(name).map_err(|fault| format!("{name}: {fault}"))?;
        let mut capture = Capture { name: name.to_string(), file, block: vec![0; BLOCK], start: 0, end: 0 };
        if !capture.has(FILE_HEAD)? {
            return Err(format!("{name}: no capture"));
        }
        let head = &capture.block[..FILE_HEAD];
        if number(head, 0) != 0xA1B2_C3D4 || number(head, 4) != 0x0004_0002 || number(head, 20) & 0xFFFF != 1 {
            return Err(format!("{name}: not a little-endian capture of Ethernet in microseconds"));
        }
        capture.start = FILE_HEAD;
        Ok(capture)
    }

    /// The next record; none at the end.
    pub fn next(&mut self) -> Result<Option<Record<'_>>, String> {
        if !self.has(RECORD_HEAD)? {
            return if self.start == self.end { Ok(None) } else { Err(self.truncated()) };
        }
        let head = &self.block[self.start..self.start + RECORD_HEAD];
        let moment = u64::from(number(head, 0)) * 1_000_000 + u64::from(number(head, 4));
        let size = number(head, 8) as usize;
        if size > LONGEST || !self.has(RECORD_HEAD + size)? {
            return Err(self.truncated());
        }
        let from = self.start + RECORD_HEAD;
        self.start = from + size;
        Ok(Some(Record { moment, frame: &self.block[from..from + size] }))
    }

    fn truncated(&self) -> String {
        format!("{}: a record is cut or too long", self.name)
    }

    /// Whether as many bytes are left; they are in the block then.
    fn has(&mut self, count: usize) -> Result<bool, String> {
        if self.end - self.start >= count {
            return Ok(true);
        }
        self.fill(count)
    }

    #[cold]
    fn fill(&mut self, count: usize) -> Result<bool, String> {
        self.block.copy_within(self.start..self.end, 0);
        self.end -= self.start;
        self.start = 0;
        if self.block.len() < count {
            self.block.resize(count, 0);
        }
        while self.end < count {
            match self.file.read(&mut self.block[self.end..]) {
                Ok(0) => return Ok(false),
                Ok(more) => self.end += more,
                Err(fault) if fault.kind() == ErrorKind::Interrupted => {}
                Err(fault) => return Err(format!("{}: {fault}", self.name)),
            }
        }
        Ok(true)
    }
}
