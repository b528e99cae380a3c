//! A small iSCSI target over RAM and a file, by the crate `cundarrix`. See README.md.

pub mod command;
mod connection;
pub mod keys;
mod login;
pub mod options;
mod outgoing;
pub mod pdu;
mod reset;
mod session;
mod state;
mod threads;
mod trace;
pub mod unit;

use disk::Disk;
use options::Options;
use session::Session;
use std::collections::HashMap;
use std::io::{self, ErrorKind, Write};
use std::net::{TcpListener, TcpStream};
use std::sync::mpsc::Sender;
use std::sync::{Arc, Mutex};
use std::thread;
use std::time::Duration;
use threads::{give_memory_back, workers, Log};
use trace::Trace;
use unit::Unit;

/// How many units the target has in RAM: LUN 0 and so on. A file is the next one.
const UNITS: u8 = 2;

/// So long no connection is taken, where one couldn't be: mostly there is no descriptor left.
const BACK_OFF: Duration = Duration::from_millis(100);

/// What all sessions share: the options, the units, and which sessions there are.
pub struct Target {
    options: Options,
    units: Vec<Arc<Unit>>,
    sessions: Mutex<Sessions>,
    /// What sessions have each other do. It isn't done by a thread that has a session's lock, but by one of its own.
    errands: Sender<Errand>,
    trace: Trace,
    log: Log,
}

type Errand = Box<dyn FnOnce() + Send>;

#[derive(Default)]
struct Sessions {
    by_tsih: HashMap<u16, Arc<Session>>,
    last: u16,
}

/// Serves each connection in a thread of its own.
pub fn run(options: Options) -> io::Result<()> {
    give_memory_back();
    let listener = TcpListener::bind(&options.listen)?;
    let target = Arc::new(Target::new(options)?);
    // Whoever began the program needn't read what it says.
    let _ = writeln!(io::stdout(), "{} at {}, without authentication", target.options.name, listener.local_addr()?);
    loop {
        match listener.accept() {
            Ok((stream, _)) => target.serve(stream),
            // A connection that is gone before it is taken says nothing of the next one.
            Err(why) if why.kind() == ErrorKind::ConnectionAborted => {}
            Err(why) => {
                target.log.say(format_args!("no connection can be taken: {why}"));
                thread::sleep(BACK_OFF);
            }
        }
    }
}

impl Target {
    fn new(options: Options) -> io::Result<Target> {
        let trace = Trace::open(options.trace.as_deref())?;
        let count = UNITS + u8::from(options.disk.is_some());
        let mut disks: Vec<_> = (0..UNITS).map(|number| Disk::in_memory(number, count, options.size)).collect();
        if let Some(path) = &options.disk {
            disks.push(Disk::on_file(UNITS, count, path, options.size)?);
        }
        let units = disks.into_iter().map(|disk| Unit::new(disk, &options).map(Arc::new)).collect::<Result<_, _>>()?;
        let errands = workers(1, |errand: Errand| errand())?;
        Ok(Target { options, units, sessions: Mutex::default(), errands, trace, log: Log::new()? })
    }

    /// Serves a connection in a thread of its own. Where there is none, the connection is closed.
    fn serve(self: &Arc<Target>, stream: TcpStream) {
        let target = self.clone();
        let serve = move || {
            if let Err(why) = connection::serve(&Arc::new(stream), &target) {
                target.log.say(format_args!("a connection is closed: {why}"));
            }
            give_memory_back();
        };
        if let Err(why) = thread::Builder::new().spawn(serve) {
            self.log.say(format_args!("a connection isn't served: {why}"));
        }
    }
}

impl Sessions {
    /// A TSIH that no session has, and not the one that was given last.
    fn new_tsih(&mut self) -> Option<u16> {
        let mut next = (1..=u16::MAX).map(|step| self.last.wrapping_add(step));
        self.last = next.find(|tsih| *tsih != 0 && !self.by_tsih.contains_key(tsih))?;
        Some(self.last)
    }
}
