//! The keys of login and text negotiation (RFC 7143 sections 6 and 13).

/// What the target accepts at most.
const MOST_CONNECTIONS: u32 = 8;
const LONGEST_BURST: u32 = 262_144;
pub const FIRST_BURST: u32 = 65_536;
const LEAST_LENGTH: u32 = 512;
const GREATEST_LEVEL: u32 = 2;

/// What the negotiation of a connection has come to. It begins with the defaults of RFC 7143 section 13.
#[derive(Clone, Debug)]
pub struct Keys {
    pub initiator: String,
    pub target: Option<String>,
    pub is_discovery: bool,
    /// The longest data segment that the initiator takes.
    pub longest_data: u32,
    pub max_burst: u32,
    /// The most immediate data that a command brings, as all other data is asked for.
    pub first_burst: u32,
    pub connections: u32,
    pub level: u32,
    /// The initiator asks for an authentication that the target doesn't have.
    pub wants_authentication: bool,
}

impl Default for Keys {
    fn default() -> Keys {
        Keys {
            initiator: String::new(),
            target: None,
            is_discovery: false,
            longest_data: 8192,
            max_burst: LONGEST_BURST,
            first_burst: FIRST_BURST,
            connections: 1,
            level: 1,
            wants_authentication: false,
        }
    }
}

/// The pairs of a text: each ends with a zero byte. `None` where it is no such text.
pub fn pairs(text: &[u8]) -> Option<Vec<(&str, &str)>> {
    let whole = std::str::from_utf8(text).ok()?;
    whole.split('\0').filter(|pair| !pair.is_empty()).map(|pair| pair.split_once('=')).collect()
}

/// Adds a pair to a text.
pub fn add_pair(text: &mut Vec<u8>, key: &str, value: &str) {
    text.extend_from_slice(format!("{key}={value}\0").as_bytes());
}

fn number(value: &str) -> Option<u32> {
    match value.strip_prefix("0x").or(value.strip_prefix("0X")) {
        Some(digits) => u32::from_str_radix(digits, 16).ok(),
        None => value.parse().ok(),
    }
}

impl Keys {
    /// Takes a request's text, and gives the answers to it. `None` where it isn't a text of pairs.
    pub fn negotiate(&mut self, text: &[u8]) -> Option<Vec<u8>> {
        let mut answers = Vec::new();
        for (key, value) in pairs(text)? {
            match (key, number(value)) {
                ("InitiatorName", _) => self.initiator = value.to_string(),
                ("TargetName", _) => {
                    self.target = Some(value.to_string());
                    add_pair(&mut answers, "TargetPortalGroupTag", "1");
                }
                ("SessionType", _) => self.is_discovery = value == "Discovery",
                ("InitiatorAlias", _) => {}
                ("MaxRecvDataSegmentLength", Some(length @ LEAST_LENGTH..=0xff_ffff)) => self.longest_data = length,
                _ => add_pair(&mut answers, key, &self.choose(key, value)),
            }
        }
        Some(answers)
    }

    /// The answer to a key with a number, a word, or a list of words.
    fn choose(&mut self, key: &str, value: &str) -> String {
        let has_none = value.split(',').any(|one| one == "None");
        self.wants_authentication |= key == "AuthMethod" && !has_none;
        let (kept, chosen) = match (key, number(value)) {
            ("MaxConnections", Some(offered)) => (&mut self.connections, offered.clamp(1, MOST_CONNECTIONS)),
            ("MaxBurstLength", Some(offered @ LEAST_LENGTH..)) => (&mut self.max_burst, offered.min(LONGEST_BURST)),
            ("FirstBurstLength", Some(offered @ LEAST_LENGTH..)) => (&mut self.first_burst, offered.min(FIRST_BURST)),
            ("iSCSIProtocolLevel", Some(offered)) => (&mut self.level, offered.clamp(1, GREATEST_LEVEL)),
            ("DefaultTime2Wait", Some(offered)) => return offered.to_string(),
            ("MaxOutstandingR2T", Some(_)) => return "1".to_string(),
            ("ErrorRecoveryLevel" | "DefaultTime2Retain", Some(_)) => return "0".to_string(),
            ("AuthMethod" | "HeaderDigest" | "DataDigest", _) if has_none => return "None".to_string(),
            ("AuthMethod" | "HeaderDigest" | "DataDigest", _) => return "Reject".to_string(),
            ("TaskReporting", _) => return if value.contains("RFC3720") { "RFC3720" } else { "Reject" }.to_string(),
            ("DataPDUInOrder" | "DataSequenceInOrder" | "InitialR2T", _) => return "Yes".to_string(),
            ("ImmediateData", _) => return if value == "Yes" { "Yes" } else { "No" }.to_string(),
            ("IFMarker" | "OFMarker", _) => return "No".to_string(),
            ("MaxBurstLength" | "FirstBurstLength" | "MaxRecvDataSegmentLength", _) => return "Reject".to_string(),
            _ => return "NotUnderstood".to_string(),
        };
        *kept = chosen;
        chosen.to_string()
    }
}
