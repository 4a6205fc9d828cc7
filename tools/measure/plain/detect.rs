//! Which rules match an item: those of its ports whose longest content occurs in it, and those without a content, are tried.
use crate::automaton::Automaton;
use crate::decode::{End, Protocol};
use crate::rules::Rule;

/// What rules are tried on: a packet, or a stretch of a stream, which has no flags.
pub struct Item<'a> {
    pub protocol: Protocol,
    pub source: End,
    pub target: End,
    pub flags: Option<u8>,
    pub is_established: bool,
    pub payload: &'a [u8],
    pub moment: u64,
}

/// Rules of one port.
#[derive(Default)]
struct Group {
    /// Seeks the longest content of each of these rules.
    automaton: Option<Automaton>,
    sought: Vec<u32>,
    /// Rules without a content.
    others: Vec<u32>,
}

/// Rules of one protocol: by the port that they are for, the target's where a rule has both.
struct Grouped {
    /// The group of each port; 0 is none.
    to: Vec<u32>,
    from: Vec<u32>,
    any: u32,
    groups: Vec<Group>,
}

impl Grouped {
    fn new(rules: &[Rule], protocol: Protocol) -> Grouped {
        let (to, from) = (vec![0; 1 << 16], vec![0; 1 << 16]);
        let mut found = Grouped { to, from, any: 0, groups: vec![Group::default()] };
        for (number, rule) in rules.iter().enumerate().filter(|(_, rule)| rule.protocol == protocol) {
            let at = match (rule.target.port, rule.source.port) {
                (Some(port), _) => &mut found.to[usize::from(port)],
                (None, Some(port)) => &mut found.from[usize::from(port)],
                (None, None) => &mut found.any,
            };
            if *at == 0 {
                *at = found.groups.len() as u32;
                found.groups.push(Group::default());
            }
            let group = &mut found.groups[*at as usize];
            match rule.longest() {
                Some(_) => group.sought.push(number as u32),
                None => group.others.push(number as u32),
            }
        }
        for group in &mut found.groups {
            let patterns: Vec<&[u8]> = group.sought.iter().filter_map(|&it| rules[it as usize].longest()).collect();
            group.automaton = (!patterns.is_empty()).then(|| Automaton::new(&patterns));
        }
        found
    }

    /// The rules to try, by their numbers, in no order.
    fn candidates(&self, item: &Item, out: &mut Vec<u32>) {
        let (to, from) = (usize::from(item.target.port()), usize::from(item.source.port()));
        for at in [self.to[to], self.from[from], self.any] {
            if at != 0 {
                let group = &self.groups[at as usize];
                out.extend_from_slice(&group.others);
                if let Some(automaton) = &group.automaton {
                    automaton.search(item.payload, |pattern| out.push(group.sought[pattern as usize]));
                }
            }
        }
    }
}

pub struct Detector {
    pub rules: Vec<Rule>,
    tcp: Grouped,
    udp: Grouped,
    candidates: Vec<u32>,
}

impl Detector {
    pub fn new(rules: Vec<Rule>) -> Detector {
        let (tcp, udp) = (Grouped::new(&rules, Protocol::Tcp), Grouped::new(&rules, Protocol::Udp));
        Detector { rules, tcp, udp, candidates: Vec::new() }
    }

    /// The numbers of the rules that match, ascending.
    pub fn matching(&mut self, item: &Item) -> &[u32] {
        self.candidates.clear();
        let grouped = if item.protocol == Protocol::Tcp { &self.tcp } else { &self.udp };
        grouped.candidates(item, &mut self.candidates);
        if !self.candidates.is_empty() {
            self.candidates.sort_unstable();
            self.candidates.dedup();
            self.candidates.retain(|&it| self.rules[it as usize].matches(item));
        }
        &self.candidates
    }
}
