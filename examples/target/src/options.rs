//! The words of the command line.

use std::path::PathBuf;
use std::time::Duration;

pub const HELP: &str = "\
target [--listen ADDRESS:PORT] [--size MIB] [--disk FILE] [--workers N] [--delay MS] [--window N] [--name IQN]
       [--sessions N] [--patience SECONDS] [--ping SECONDS] [--trace FILE]
";

#[derive(Debug, PartialEq, Eq)]
pub struct Options {
    pub listen: String,
    pub size: usize,
    pub disk: Option<PathBuf>,
    pub workers: u32,
    pub delay: Duration,
    pub window: u32,
    pub name: String,
    pub sessions: usize,
    /// So long a login may take, and so long a socket may take no byte.
    pub patience: Duration,
    /// So long an initiator may be silent before it is asked, and so long it may take to answer, and half as long again: less
    /// than the five seconds after which Linux gives up a target whose own answers wait for that one.
    pub ping: Duration,
    pub trace: Option<PathBuf>,
}

impl Default for Options {
    fn default() -> Options {
        Options {
            listen: "127.0.0.1:3260".to_string(),
            size: 64 << 20,
            disk: None,
            workers: 2,
            delay: Duration::ZERO,
            window: 32,
            name: "iqn.2026-01.example.cundarrix:ram".to_string(),
            sessions: 32,
            patience: Duration::from_secs(30),
            ping: Duration::from_secs(3),
            trace: None,
        }
    }
}

impl Options {
    /// The options that these words say, or the line that says what is wrong.
    pub fn read(mut words: impl Iterator<Item = String>) -> Result<Options, String> {
        let mut options = Options::default();
        while let Some(word) = words.next() {
            let value = words.next().ok_or_else(|| format!("{word} has no value, or is unknown; see --help"))?;
            match word.as_str() {
                "--listen" => options.listen = value,
                "--size" => options.size = (number(&word, &value, 1, 4096)? as usize) << 20,
                "--disk" => options.disk = Some(PathBuf::from(value)),
                "--workers" => options.workers = number(&word, &value, 1, 64)?,
                "--delay" => options.delay = Duration::from_millis(number(&word, &value, 0, 3_600_000)?.into()),
                "--window" => options.window = number(&word, &value, 1, 256)?,
                "--name" => options.name = name(value)?,
                "--sessions" => options.sessions = number(&word, &value, 1, 4096)? as usize,
                "--patience" => options.patience = Duration::from_secs(number(&word, &value, 1, 3600)?.into()),
                "--ping" => options.ping = Duration::from_secs(number(&word, &value, 1, 3600)?.into()),
                "--trace" => options.trace = Some(PathBuf::from(value)),
                _ => return Err(format!("there is no option {word}; see --help")),
            }
        }
        Ok(options)
    }
}

fn number(word: &str, value: &str, least: u32, most: u32) -> Result<u32, String> {
    let number = value.parse().ok().filter(|number| (least..=most).contains(number));
    number.ok_or_else(|| format!("{word} takes {least} to {most}"))
}

/// A name as it may stand in a text, and no longer than names are (RFC 7143 section 4.2.7.1).
fn name(value: String) -> Result<String, String> {
    let is_fit = (1..=223).contains(&value.len()) && value.bytes().all(|byte| byte.is_ascii_graphic());
    is_fit.then_some(value).ok_or("--name takes 1 to 223 letters without blanks".to_string())
}
