//! Which matches become alert lines: the queue of an item, the event filter, and the lines.
use std::collections::HashMap;
use std::io::{self, BufWriter, StdoutLock, Write};
use std::net::Ipv4Addr;

use crate::config::Settings;
use crate::decode::{End, Protocol};
use crate::detect::{Detector, Item};

/// Of the rules that match an item as many are queued, and the first of these are told, the longest contents first.
const QUEUED: usize = 8;
const TOLD: usize = 3;

/// When an interval began, and how many events it had.
struct Window {
    start: u64,
    count: u32,
}

pub struct Events {
    detector: Detector,
    count: u32,
    interval: u64,
    /// By rule and destination.
    windows: HashMap<(u32, u32), Window>,
    out: BufWriter<StdoutLock<'static>>,
    /// Why a line wasn't written.
    fault: Option<io::Error>,
}

impl Events {
    pub fn new(settings: &Settings, detector: Detector) -> Events {
        Events {
            detector,
            count: settings.filter_count,
            interval: settings.filter_seconds,
            windows: HashMap::new(),
            out: BufWriter::with_capacity(64 << 10, io::stdout().lock()),
            fault: None,
        }
    }

    /// Tries all rules on an item, and writes its lines.
    pub fn inspect(&mut self, item: &Item) {
        let matching = self.detector.matching(item);
        if !matching.is_empty() {
            let queued = matching[..matching.len().min(QUEUED)].to_vec();
            self.tell(item, queued);
        }
    }

    #[cold]
    fn tell(&mut self, item: &Item, mut queued: Vec<u32>) {
        let size = |&it: &u32| self.detector.rules[it as usize].longest().map_or(0, <[u8]>::len);
        queued.sort_by_key(|it| std::cmp::Reverse(size(it)));
        for rule in queued.into_iter().take(TOLD) {
            if self.is_kept(rule, item) {
                if let Err(fault) = self.write(rule, item) {
                    self.fault.get_or_insert(fault);
                }
            }
        }
    }

    /// The event filter: a limit for each rule and destination.
    fn is_kept(&mut self, rule: u32, item: &Item) -> bool {
        let now = item.moment;
        let window = self.windows.entry((rule, item.target.address())).or_insert(Window { start: now, count: 0 });
        if now >= window.start + self.interval {
            *window = Window { start: now, count: 0 };
        }
        window.count = window.count.saturating_add(1);
        window.count <= self.count
    }

    fn write(&mut self, rule: u32, item: &Item) -> io::Result<()> {
        let rule = &self.detector.rules[rule as usize];
        let (seconds, micros) = (item.moment / 1_000_000, item.moment % 1_000_000);
        let (month, day) = date(seconds / 86_400);
        let (hour, minute, second) = (seconds / 3600 % 24, seconds / 60 % 60, seconds % 60);
        let protocol = if item.protocol == Protocol::Tcp { "TCP" } else { "UDP" };
        let end = |end: End| format!("{}:{}", Ipv4Addr::from(end.address()), end.port());
        write!(self.out, "{month:02}/{day:02}-{hour:02}:{minute:02}:{second:02}.{micros:06}  ")?;
        write!(self.out, "[**] [1:{}:0] {} [**] [Priority: 0] {{{protocol}}} ", rule.sid, rule.message)?;
        writeln!(self.out, "{} -> {}", end(item.source), end(item.target))
    }

    pub fn finish(&mut self) -> Result<(), String> {
        let written = self.fault.take().map_or_else(|| self.out.flush(), Err);
        written.map_err(|fault| format!("standard output: {fault}"))
    }
}

/// The month and the day of the month of a day since 1970-01-01.
fn date(mut day: u64) -> (usize, u64) {
    let is_leap = |year: u64| year % 4 == 0 && (year % 100 != 0 || year % 400 == 0);
    let mut year = 1970;
    while day >= 365 + u64::from(is_leap(year)) {
        day -= 365 + u64::from(is_leap(year));
        year += 1;
    }
    let months = [31, 28 + u64::from(is_leap(year)), 31, 30, 31, 30, 31, 31, 30, 31, 30, 31];
    let mut month = 0;
    while day >= months[month] {
        day -= months[month];
        month += 1;
    }
    (month + 1, day + 1)
}
