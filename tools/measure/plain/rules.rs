//! Rules of the forms that tools/measure/traffic writes, and whether one matches an item.
use crate::config::Network;
use crate::decode::{End, Protocol};
use crate::detect::Item;

#[derive(Default)]
struct Content {
    bytes: Vec<u8>,
    is_nocase: bool,
    /// Counted from the end of the match before, not from the payload's begin.
    is_relative: bool,
    from: usize,
    /// It lies within as many bytes from there on.
    within: Option<usize>,
}

/// An option that looks at the payload.
enum Step {
    Content(Content),
    /// A number of as many bytes, at a place, is above a value.
    Above { size: usize, value: u64, at: usize },
    /// As many digits follow the match before: `pcre:"/^[0-9]{4}/R"`, by hand.
    Digits(usize),
}

/// One side of a rule's header: without a network or a port any will do.
pub struct Side {
    network: Option<Network>,
    pub port: Option<u16>,
}

impl Side {
    fn fits(&self, end: End) -> bool {
        self.port.map_or(true, |port| port == end.port()) && self.network.map_or(true, |it| it.contains(end.address()))
    }
}

pub struct Rule {
    pub protocol: Protocol,
    pub source: Side,
    pub target: Side,
    is_established: bool,
    /// These bits are set and no other, apart from those that aren't looked at.
    flags: Option<(u8, u8)>,
    steps: Vec<Step>,
    pub message: String,
    pub sid: u32,
}

impl Rule {
    /// The first of its longest contents.
    pub fn longest(&self) -> Option<&[u8]> {
        let contents = self.steps.iter().filter_map(|step| match step {
            Step::Content(content) => Some(content.bytes.as_slice()),
            _ => None,
        });
        contents.reduce(|best, it| if it.len() > best.len() { it } else { best })
    }

    pub fn matches(&self, item: &Item) -> bool {
        self.source.fits(item.source)
            && self.target.fits(item.target)
            && (!self.is_established || item.is_established)
            && self.flags.map_or(true, |(set, left_out)| item.flags.map_or(false, |it| it & !left_out == set))
            && hold(&self.steps, item.payload, 0)
    }
}

/// Whether some choice of places satisfies all of these, where the match before ended at `after`.
fn hold(steps: &[Step], payload: &[u8], after: usize) -> bool {
    let Some((step, later)) = steps.split_first() else { return true };
    match step {
        Step::Content(content) => {
            let start = content.from + if content.is_relative { after } else { 0 };
            let end = content.within.map_or(payload.len(), |it| payload.len().min(start + it));
            let (mut start, size) = (start, content.bytes.len());
            while start + size <= end {
                let Some(at) = content.find(&payload[start..end]) else { return false };
                start += at + 1;
                if hold(later, payload, start - 1 + size) {
                    return true;
                }
            }
            false
        }
        Step::Above { size, value, at } => {
            let number = payload.get(*at..at + size).map(|it| it.iter().fold(0, |sum, &byte| sum << 8 | u64::from(byte)));
            number.map_or(false, |it| it > *value) && hold(later, payload, after)
        }
        Step::Digits(count) => {
            let digits = payload.get(after..after + count);
            digits.map_or(false, |it| it.iter().all(u8::is_ascii_digit)) && hold(later, payload, after + count)
        }
    }
}

impl Content {
    fn find(&self, bytes: &[u8]) -> Option<usize> {
        let (first, size) = (self.bytes[0], self.bytes.len());
        let last = bytes.len().checked_sub(size)?;
        if self.is_nocase {
            return (0..=last).find(|&at| bytes[at..at + size].eq_ignore_ascii_case(&self.bytes));
        }
        (0..=last).find(|&at| bytes[at] == first && bytes[at..at + size] == self.bytes[..])
    }
}

/// A rule; none where it has a form that isn't supported.
pub fn read(line: &str, home: Option<Network>) -> Option<Rule> {
    let (head, options) = line.strip_prefix("alert ")?.split_once(" (")?;
    let words: Vec<&str> = head.split(' ').collect();
    let &[protocol, source, source_port, "->", target, target_port] = words.as_slice() else { return None };
    let side = |network: &str, port: &str| {
        let network = match network {
            "any" => None,
            "$HOME_NET" => Some(home?),
            _ => return None,
        };
        let port = if port == "any" { None } else { Some(port.parse().ok()?) };
        Some(Side { network, port })
    };
    let protocol = match protocol {
        "tcp" => Protocol::Tcp,
        "udp" => Protocol::Udp,
        _ => return None,
    };
    let (source, target) = (side(source, source_port)?, side(target, target_port)?);
    let (steps, message) = (Vec::new(), String::new());
    let mut rule = Rule { protocol, source, target, is_established: false, flags: None, steps, message, sid: 0 };
    for option in options.strip_suffix(";)")?.split("; ") {
        let (name, value) = option.split_once(':').unwrap_or((option, ""));
        take(&mut rule, name, value)?;
    }
    (rule.sid > 0).then_some(rule)
}

/// The text between quotes, without what has a meaning of its own there.
fn quoted(value: &str) -> Option<&str> {
    let text = value.strip_prefix('"')?.strip_suffix('"')?;
    (!text.is_empty() && !text.contains(['\\', '|', '"', ';'])).then_some(text)
}

fn take(rule: &mut Rule, name: &str, value: &str) -> Option<()> {
    match (name, value) {
        ("flow", "established") => rule.is_established = true,
        ("msg", _) => rule.message = quoted(value)?.to_string(),
        ("sid", _) => rule.sid = value.parse().ok()?,
        ("flags", _) => rule.flags = Some(flags(value)?),
        ("content", _) => {
            let bytes = quoted(value)?.as_bytes().to_vec();
            rule.steps.push(Step::Content(Content { bytes, ..Content::default() }));
        }
        ("byte_test", _) => {
            let parts: Vec<&str> = value.split(',').collect();
            let &[size, ">", number, at] = parts.as_slice() else { return None };
            let size = size.parse().ok().filter(|it| (1..=4).contains(it))?;
            rule.steps.push(Step::Above { size, value: number.parse().ok()?, at: place(at)? });
        }
        ("pcre", _) => {
            let count = value.strip_prefix("\"/^[0-9]{")?.strip_suffix("}/R\"")?;
            rule.steps.push(Step::Digits(place(count)?));
        }
        _ => match rule.steps.last_mut()? {
            Step::Content(content) => modify(content, name, value)?,
            _ => return None,
        },
    }
    Some(())
}

fn place(value: &str) -> Option<usize> {
    value.parse().ok().filter(|&it| it <= 65_535)
}

fn modify(content: &mut Content, name: &str, value: &str) -> Option<()> {
    match name {
        "nocase" => content.is_nocase = true,
        "offset" => content.from = place(value)?,
        "depth" => content.within = Some(place(value)?),
        "distance" => (content.is_relative, content.from) = (true, place(value)?),
        "within" => (content.is_relative, content.within) = (true, Some(place(value)?)),
        _ => return None,
    }
    Some(())
}

fn flags(value: &str) -> Option<(u8, u8)> {
    let bit = |letter| Some(1 << "FSRPAU21".find(letter)?);
    let bits = |letters: &str| letters.chars().try_fold(0, |bits, letter| Some(bits | bit(letter)?));
    let (set, left_out) = value.split_once(',').unwrap_or((value, ""));
    let left_out: u8 = bits(left_out)?;
    Some((bits(set)? & !left_out, left_out))
}
