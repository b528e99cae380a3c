//! The logical units: disks, and commands that are enabled.

use crate::options::Options;
use crate::pdu::{place, Header};
use crate::session::Session;
use crate::threads::workers;
use disk::{Disk, Outcome, Sense};
use std::io;
use std::sync::mpsc::Sender;
use std::sync::Arc;
use std::thread;
use std::time::Duration;

/// A command that may be executed, with the data that came for it.
pub struct Job {
    pub session: Arc<Session>,
    pub ticket: u64,
    pub cookie: u64,
    pub unit: Arc<Unit>,
    pub header: Header,
    pub data: Result<Vec<u8>, Sense>,
}

pub struct Unit {
    pub disk: Disk,
    /// How long a command waits before it begins, when it can still be stopped; and how much longer its work takes, which
    /// nobody can call back.
    pub delay_before: Duration,
    delay_within: Duration,
    /// Its workers. There are none where a command takes no time but that of a copy: then the thread that may execute
    /// it does.
    pub workers: Option<Sender<Job>>,
}

impl Unit {
    pub fn new(disk: Disk, options: &Options) -> io::Result<Unit> {
        let takes_time = !disk.is_in_memory() || !options.delay.is_zero();
        let start = || workers(options.workers, |job: Job| job.session.perform(&job));
        let (workers, delay_before) = (takes_time.then(start).transpose()?, options.delay * disk.is_in_memory().into());
        Ok(Unit { disk, delay_before, delay_within: options.delay - delay_before, workers })
    }
}

impl Job {
    pub fn execute(&self) -> Outcome {
        thread::sleep(self.unit.delay_within);
        match &self.data {
            Ok(data) => self.unit.disk.execute(&self.header.part(place::CDB), data),
            Err(sense) => Outcome::failed(Some(*sense)),
        }
    }
}
