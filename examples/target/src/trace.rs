//! The trace of the workers: a line for each command that one of them took.

use crate::pdu::place;
use crate::unit::Job;
use std::fs::File;
use std::io::{self, Write};
use std::path::Path;
use std::time::{SystemTime, UNIX_EPOCH};

/// This moment, in nanoseconds since 1970, as a capture has it.
pub fn now() -> u128 {
    SystemTime::now().duration_since(UNIX_EPOCH).map_or(0, |since| since.as_nanos())
}

/// The file of the trace, if one is wanted.
pub struct Trace(Option<File>);

impl Trace {
    pub fn open(path: Option<&Path>) -> io::Result<Trace> {
        let file = path.map(File::create).transpose()?;
        if let Some(mut file) = file.as_ref() {
            writeln!(file, "# ticket tag cmdsn lun start end outcome tsih")?;
        }
        Ok(Trace(file))
    }

    /// Writes the line of a command, with one call. A trace that can't be written any more stops no command.
    pub fn write(&self, job: &Job, begin: u128, end: u128, is_completed: bool) {
        if let Some(mut file) = self.0.as_ref() {
            let (ticket, tsih, header) = (job.ticket, job.session.tsih, &job.header);
            let (tag, cmd_sn, lun) = (header.tag(), header.number(place::CMD_SN), header.0[9]);
            let outcome = if is_completed { "completed" } else { "stopped" };
            let line = format!("{ticket} {tag:08x} {cmd_sn:08x} {lun} {begin} {end} {outcome} {tsih:04x}\n");
            let _ = file.write_all(line.as_bytes());
        }
    }
}
