//! A connection: its reader takes requests, and writes what comes of them; its writer writes the rest.

use crate::login;
use crate::outgoing::Batch;
use crate::pdu::{Pdu, LONGEST_DATA};
use crate::session::Session;
use crate::Target;
use std::collections::VecDeque;
use std::error::Error;
use std::io::{self, BufReader, ErrorKind, Read};
use std::net::TcpStream;
use std::sync::{Arc, Condvar, Weak};
use std::thread;
use std::time::{Duration, Instant};

/// So long a write waits for room in the socket. Then its thread looks at what else there is.
const WRITE_TIME: Duration = Duration::from_millis(10);

/// Why a connection is closed by the target: its socket, the library's refusal, or what the initiator must not do.
pub type Fault = Box<dyn Error + Send + Sync>;

/// Serves a connection to its end.
pub fn serve(stream: &Arc<TcpStream>, target: &Arc<Target>) -> Result<(), Fault> {
    stream.set_nodelay(true)?;
    stream.set_write_timeout(Some(WRITE_TIME))?;
    let until = Instant::now() + target.options.patience;
    let mut requests = BufReader::with_capacity(1 << 16, Incoming { stream, until: Some(until) });
    let Some(member) = login::log_in(&mut requests, stream, target, until)? else {
        return Ok(());
    };
    requests.get_mut().until = None;
    stream.set_read_timeout(None)?;
    thread::scope(|scope| {
        thread::Builder::new().spawn_scoped(scope, || member.write())?;
        let read = member.read(&mut requests);
        member.session.with(|state| state.break_off(member.connection.cid));
        read
    })
}

/// What arrives on a socket, until the moment at which the login must have ended.
pub struct Incoming<'a> {
    stream: &'a TcpStream,
    until: Option<Instant>,
}

impl Read for Incoming<'_> {
    fn read(&mut self, buffer: &mut [u8]) -> io::Result<usize> {
        loop {
            if let Some(until) = self.until {
                let left = until.saturating_duration_since(Instant::now());
                if left.is_zero() {
                    return Err(io::Error::new(ErrorKind::TimedOut, "the login took too long"));
                }
                self.stream.set_read_timeout(Some(left))?;
            }
            match self.stream.read(buffer) {
                // A signal, or the time is over.
                Err(why) if [ErrorKind::Interrupted, ErrorKind::WouldBlock].contains(&why.kind()) => {}
                read => return read,
            }
        }
    }
}

/// A connection, and the session that it is part of. It is lost when this is dropped, behind both of its threads.
pub struct Member {
    pub session: Arc<Session>,
    pub connection: Arc<Connection>,
}

impl Member {
    /// Takes requests until the socket is at its end. What comes of them is written before more is waited for.
    fn read(&self, requests: &mut BufReader<Incoming>) -> Result<(), Fault> {
        loop {
            if !Pdu::is_whole(requests.buffer()) {
                self.session.write(&self.connection, false);
            }
            let Some(request) = Pdu::read(requests, LONGEST_DATA)? else {
                return Ok(());
            };
            self.session.take(&self.connection, request)?;
        }
    }

    /// Writes what the reader doesn't, until nothing goes out any more, or the socket has taken nothing for too long.
    fn write(&self) {
        let patience = self.session.target.options.patience;
        let mut stuck = None;
        while self.session.await_turn(&self.connection) && stuck.is_none_or(|since: Instant| since.elapsed() < patience)
        {
            let since = stuck.unwrap_or_else(Instant::now);
            stuck = Some(since).filter(|_| !self.session.write(&self.connection, true));
        }
        self.session.with(|state| state.break_off(self.connection.cid));
    }
}

impl Drop for Member {
    fn drop(&mut self) {
        self.session.lose(self.connection.cid);
    }
}

/// A connection in its Full Feature Phase.
pub struct Connection {
    pub cid: u16,
    /// The longest data segment that the initiator takes on it.
    pub longest_data: usize,
    pub stream: Arc<TcpStream>,
    /// Beside the lock of its session: there is something for the writer.
    pub changed: Condvar,
}

/// What the lock of its session guards of a connection that joined and wasn't lost yet.
#[derive(Default)]
pub struct Attached {
    pub connection: Weak<Connection>,
    /// The library may have something for it, or nothing any more; and a thread writes there.
    pub is_told: bool,
    pub is_writing: bool,
    /// Its reader will write what there is, before it waits for more requests; and its writer waits.
    pub is_taking: bool,
    pub is_idle: bool,
    /// What was handed out for it, and isn't written yet.
    pub unwritten: Option<Batch>,
    /// Commands that have something to put into the library's queue.
    pub putting: VecDeque<u64>,
    /// A Logout closed it; and its transport broke, or is given up.
    pub is_closed: bool,
    pub is_broken: bool,
    /// When its clock strikes next, whether something arrived since it did, and since when a ping is unanswered.
    pub next_strike: Option<Instant>,
    pub was_heard: bool,
    pub asked: Option<Instant>,
}

impl Attached {
    /// Wakes the writer, if it waits. To wake nobody is a call of the system, too.
    pub fn wake(&self) {
        if let Some(connection) = self.connection.upgrade().filter(|_| self.is_idle) {
            connection.changed.notify_one();
        }
    }
}
