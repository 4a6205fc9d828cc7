//! The configuration: the lines that tools/measure/traffic writes, and rules. Each of these lines has to be there, and no other.
use crate::rules::{self, Rule};

#[derive(Default)]
pub struct Settings {
    pub max_frags: usize,
    pub max_tcp: usize,
    pub max_udp: usize,
    /// Microseconds.
    pub tcp_timeout: u64,
    pub udp_timeout: u64,
    /// Of servers, both of whose sides are put together.
    pub stream_port: u16,
    /// Of each rule as many events to one address are told in as many seconds.
    pub filter_count: u32,
    pub filter_seconds: u64,
}

/// A network: an address and its mask.
#[derive(Clone, Copy)]
pub struct Network {
    address: u32,
    mask: u32,
}

impl Network {
    pub fn contains(self, address: u32) -> bool {
        address & self.mask == self.address & self.mask
    }

    fn read(text: &str) -> Option<Network> {
        let (address, bits) = text.split_once('/')?;
        let bits: u32 = bits.parse().ok().filter(|&it| it <= 32)?;
        let address = address.parse::<std::net::Ipv4Addr>().ok()?;
        Some(Network { address: address.into(), mask: u32::MAX.checked_shl(32 - bits).unwrap_or(0) })
    }
}

/// The numbers of a line: in its form a `#` is a number, and all else is as it is.
fn numbers(line: &str, form: &str) -> Option<Vec<u64>> {
    let mut parts = form.split('#');
    let mut rest = line.strip_prefix(parts.next()?)?;
    let mut found = Vec::new();
    for part in parts {
        let digits = rest.len() - rest.trim_start_matches(|it: char| it.is_ascii_digit()).len();
        found.push(rest[..digits].parse().ok()?);
        rest = rest[digits..].strip_prefix(part)?;
    }
    rest.is_empty().then_some(found)
}

const FORMS: [&str; 7] = [
    "config checksum_mode: all",
    "preprocessor frag3_global: max_frags #",
    "preprocessor frag3_engine: policy linux",
    "preprocessor stream5_global: track_tcp yes, track_udp yes, max_tcp #, max_udp #",
    "preprocessor stream5_tcp: policy linux, timeout #, ports both #",
    "preprocessor stream5_udp: timeout #",
    "event_filter gen_id 1, sig_id 0, type limit, track by_dst, count #, seconds #",
];
const SECOND: u64 = 1_000_000;

impl Settings {
    /// Takes the numbers of a form; false where one is out of range.
    fn take(&mut self, form: usize, numbers: &[u64]) -> bool {
        match (form, numbers) {
            (1, &[frags]) => self.max_frags = frags as usize,
            (3, &[tcp, udp]) => (self.max_tcp, self.max_udp) = (tcp as usize, udp as usize),
            (4, &[timeout, port]) => {
                let Ok(port) = u16::try_from(port) else { return false };
                (self.tcp_timeout, self.stream_port) = (timeout.saturating_mul(SECOND), port);
            }
            (5, &[timeout]) => self.udp_timeout = timeout.saturating_mul(SECOND),
            (6, &[count, seconds]) => {
                let Ok(count) = u32::try_from(count) else { return false };
                (self.filter_count, self.filter_seconds) = (count, seconds.saturating_mul(SECOND));
            }
            _ => {}
        }
        numbers.iter().all(|&it| it > 0 && it < 1 << 20)
    }
}

/// The settings and the rules of a configuration, or what of it isn't supported.
pub fn read(text: &str) -> Result<(Settings, Vec<Rule>), String> {
    let (mut settings, mut seen, mut home, mut lines) = (Settings::default(), [false; FORMS.len()], None, Vec::new());
    for line in text.lines().filter(|line| !line.is_empty()) {
        let form = FORMS.iter().enumerate().find_map(|(at, form)| Some((at, numbers(line, form)?)));
        if let Some((at, numbers)) = form {
            if seen[at] || !settings.take(at, &numbers) {
                return Err(format!("not supported here: {line}"));
            }
            seen[at] = true;
        } else if let Some(network) = line.strip_prefix("ipvar HOME_NET ") {
            home = Some(Network::read(network).ok_or_else(|| format!("no network: {line}"))?);
        } else if line.starts_with("alert ") {
            lines.push(line);
        } else {
            return Err(format!("not supported here: {line}"));
        }
    }
    if let Some(at) = seen.iter().position(|&it| !it) {
        return Err(format!("this line is needed: {}", FORMS[at]));
    }
    let read = |line: &&str| rules::read(line, home).ok_or_else(|| format!("not supported here: {line}"));
    Ok((settings, lines.iter().map(read).collect::<Result<_, _>>()?))
}
