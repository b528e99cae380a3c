//! Recordings and their reports, as text: docs/FORMATS.md, sections 4 and 5.

use cundarrix::Options;
use std::collections::HashMap;

/// The arrival of a header on a connection, or the completion of a ticket with a status.
pub enum Event {
    Arrive { cid: u16, header: [u8; 48] },
    Complete { ticket: u64, status: u8 },
}

/// A recording: its connections with the StatSN of each one's first reply, and its events.
#[derive(Default)]
pub struct Recording {
    pub connections: Vec<(u16, u32)>,
    pub events: Vec<Event>,
}

/// What a report says that came of an event.
#[derive(Debug, Default, PartialEq, Eq)]
pub struct Outcome {
    /// The commands that started, and weren't taken out again in the same event: tickets with the tags of their
    /// requests, units and attributes.
    pub starts: Vec<(u64, u32, u16, String)>,
    /// The commands that were started by an earlier event and are taken out, and whether by a Logout.
    pub stops: Vec<(u64, bool)>,
    /// The replies, by their connections.
    pub replies: Vec<(u16, Vec<u8>)>,
    /// The connections that close.
    pub closes: Vec<u16>,
    /// Whether nothing comes of the event: it is passed over, or a NOP-Out that asks for no answer.
    pub is_nothing: bool,
}

/// The bytes that pairs of digits stand for.
pub fn bytes_of(digits: &str) -> Vec<u8> {
    let pairs = (0..digits.len()).step_by(2);
    pairs.map(|at| u8::from_str_radix(&digits[at..at + 2], 16).expect("two digits")).collect()
}

fn number(digits: &str) -> u32 {
    u32::from_str_radix(digits, 16).expect("eight digits")
}

impl Recording {
    pub fn read(recording: &[u8]) -> Recording {
        let mut read = Recording::default();
        // What is passed over may be any bytes.
        let passed_over = |line: &&[u8]| line.first().is_none_or(|first| b"# ".contains(first));
        for line in recording.split(|byte| *byte == b'\n').filter(|line| !passed_over(line)) {
            let line = std::str::from_utf8(line).expect("a line of ASCII");
            let fields: Vec<&str> = line.strip_prefix("> ").unwrap_or(line).split(' ').collect();
            match fields[..] {
                ["conn", cid, stat_sn] => read.connections.push((cid.parse().expect("a CID"), number(stat_sn))),
                ["C", cid, header] => {
                    let header = bytes_of(header).try_into().expect("48 bytes");
                    read.events.push(Event::Arrive { cid: cid.parse().expect("a CID"), header });
                }
                ["D", ticket, status] => {
                    let status = u8::from_str_radix(status, 16).expect("two digits");
                    read.events.push(Event::Complete { ticket: ticket.parse().expect("a ticket"), status });
                }
                _ => panic!("not a line of a recording: {line}"),
            }
        }
        read
    }
}

/// The options that the words of the program say, and whether they have `--threads`. An option and its value are two
/// words, or one with `=` between them.
pub fn options_of(words: &str) -> (Options, bool) {
    let mut words = words.split_whitespace().flat_map(|word| word.splitn(2, '='));
    let (mut options, mut threads) = (Options::new(), false);
    while let Some(word) = words.next() {
        if word == "--threads" {
            threads = true;
            continue;
        }
        let value = words.next().expect("a value");
        let decimal = || value.parse().expect("a number");
        options = match word {
            "--first" => options.first_cmd_sn(number(value)),
            "--window" => options.window(decimal()),
            "--units" => options.units(decimal()),
            "--depth" => options.depth(decimal()),
            "--level" => options.level(decimal()),
            other => panic!("no option {other}"),
        };
    }
    (options, threads)
}

/// What kind of effect a line has.
fn word_of(effect: &str) -> &str {
    effect.split(' ').next().unwrap_or(effect)
}

/// Reads a report, whose later lines stand on its earlier ones.
#[derive(Default)]
pub struct Reader {
    /// The commands that entered: their tags, units and attributes.
    entered: HashMap<u64, (u32, u16, String)>,
    /// Those that were told to start, and haven't left.
    started: Vec<u64>,
    open: Vec<u16>,
    /// The connection and the tag of the request that executes.
    executing: Option<(u16, u32)>,
}

impl Reader {
    pub fn new(connections: &[(u16, u32)]) -> Reader {
        Reader { open: connections.iter().map(|(cid, _)| *cid).collect(), ..Reader::default() }
    }

    /// What the effects of an event come to.
    pub fn outcome(&mut self, effects: &[&str]) -> Outcome {
        let (mut outcome, mut enabled) = (Outcome::default(), Vec::new());
        outcome.is_nothing = matches!(effects, [only] if ["ignore", "deliver", "immediate"].contains(&word_of(only)));
        self.executing = None;
        let mut item = 0;
        for effect in effects {
            let fields: Vec<&str> = effect.split(' ').collect();
            match fields[..] {
                ["deliver" | "immediate", cid, _, tag] => {
                    self.executing = Some((cid.parse().expect("a CID"), number(tag)));
                    item = outcome.stops.len();
                }
                ["enter", ticket, unit, attribute] => self.enter(ticket, unit, attribute),
                ["enable", ticket] => enabled.push(ticket.parse().expect("a ticket")),
                ["leave", ticket] => self.leave(ticket, &mut enabled, &mut outcome),
                ["send", cid, pdu] => outcome.replies.push((cid.parse().expect("a CID"), bytes_of(pdu))),
                ["close-conn", cid] => self.close(&[cid.parse().expect("a CID")], item, &mut outcome),
                ["close-session"] => self.close(&self.open.clone(), item, &mut outcome),
                ["ignore", _] | ["wait", ..] | ["void", _] | ["empty", _] => {}
                _ => panic!("not a line of a report: {effect}"),
            }
        }
        for ticket in &enabled {
            let (tag, unit, attribute) = self.entered[ticket].clone();
            outcome.starts.push((*ticket, tag, unit, attribute));
        }
        self.started.append(&mut enabled);
        outcome
    }

    fn enter(&mut self, ticket: &str, unit: &str, attribute: &str) {
        let (_, tag) = self.executing.expect("a request executes");
        let command = (tag, unit.parse().expect("a unit"), attribute.to_string());
        self.entered.insert(ticket.parse().expect("a ticket"), command);
    }

    /// A command leaves: it completes, or a request takes it out. One that this event enabled is never told.
    fn leave(&mut self, ticket: &str, enabled: &mut Vec<u64>, outcome: &mut Outcome) {
        let ticket = ticket.parse().expect("a ticket");
        enabled.retain(|one| *one != ticket);
        let was_started = self.started.contains(&ticket);
        self.started.retain(|one| *one != ticket);
        if was_started && self.executing.is_some() {
            outcome.stops.push((ticket, false));
        }
    }

    /// A Logout closes connections. What its item took out it took out, and what waits on another connection doesn't go
    /// out.
    fn close(&mut self, cids: &[u16], item: usize, outcome: &mut Outcome) {
        let (by, _) = self.executing.expect("a Logout executes");
        outcome.stops[item..].iter_mut().for_each(|(_, by_logout)| *by_logout = true);
        for cid in cids.iter().filter(|cid| self.open.contains(cid)) {
            outcome.closes.push(*cid);
            outcome.replies.retain(|(other, _)| other != cid || *cid == by);
        }
        self.open.retain(|cid| !cids.contains(cid));
    }
}

/// The effects of each event of a report.
pub fn effects_of(report: &str) -> Vec<Vec<&str>> {
    let mut events = Vec::new();
    for line in report.lines() {
        match line.strip_prefix("  ") {
            Some(effect) => events.last_mut().map(|effects: &mut Vec<&str>| effects.push(effect)).expect("an event"),
            None => events.push(Vec::new()),
        }
    }
    events
}
